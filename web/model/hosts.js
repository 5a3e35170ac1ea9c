// The same limits in the words of QEMU's monitor and of libvirt: those of `precopy-view predict`. A sentence says what
// a hypervisor does not take; others say what its commands leave out of a limit.

import { timeText } from "./numbers.js";
import { quantityWords } from "./quantities.js";
import { RATE_UNITS } from "./units.js";

/** The unit in which libvirt takes a rate; none of it would mean no limit. */
const LIBVIRT_UNIT = RATE_UNITS.MiB;

/** From this part of a link on it is told that libvirt leaves it out. */
const NOTICED = 100n;

/** The longest downtime that QEMU takes, and with it libvirt, in milliseconds. */
const MOST_MILLIS = 2_000_000n;

/** What hypervisors do not take, in the sentences of `precopy-view predict`. */
const REFUSED = {
  qemuDowntime: "QEMU takes a downtime of at most 2,000 s.",
  libvirtDowntime: "libvirt takes a downtime of 1 ms to 2,000 s.",
  libvirtLink: "libvirt takes whole MiB a second, and the link has less than one.",
};

/** What a hypervisor takes as a downtime: what is left for pages, in whole milliseconds. */
function millisIn({ downtime, reserve }) {
  return (downtime - reserve) / 1_000n;
}

/** Why a downtime is no command, or is not all of the limit; nothing if it is. */
function downtimeNote(limits, isLibvirt) {
  const millis = millisIn(limits);
  const left = limits.downtime - limits.reserve;
  if (millis > MOST_MILLIS || (isLibvirt && millis === 0n)) {
    return isLibvirt ? REFUSED.libvirtDowntime : REFUSED.qemuDowntime;
  }
  if (millis === 0n) {
    return `QEMU takes whole milliseconds of downtime, and here it is ${timeText(left)} for pages. With 0 it stops the `
      + "guest only once no page is left.";
  }
  return left === millis * 1_000n ? ""
    : `A downtime is in whole milliseconds: ${millis} ms of the ${timeText(left)} for pages.`;
}

/** Why the link is no command of libvirt, or is noticeably more than that; nothing if it is neither. */
function linkNote({ link }, words) {
  if (link < LIBVIRT_UNIT) {
    return REFUSED.libvirtLink;
  }
  return (link % LIBVIRT_UNIT) * NOTICED < link ? ""
    : `libvirt takes whole MiB a second: ${link / LIBVIRT_UNIT} MiB/s is less than the link of ${words}, and takes `
      + "longer.";
}

function joinedNotes(...notes) {
  return notes.filter(Boolean).join(" ");
}

/** Commands for a hypervisor, and what they do not say, of limits whose link is shown as a quantity. */
export function hostCommands(limits, link) {
  const millis = millisIn(limits);
  const isLongest = millis > MOST_MILLIS;
  const qemu = [`migrate_set_parameter max-bandwidth ${limits.link}B`];
  const libvirt = [];
  if (!isLongest) {
    qemu.push(`migrate_set_parameter downtime-limit ${millis}`);
  }
  if (limits.link >= LIBVIRT_UNIT) {
    libvirt.push(`virsh migrate-setspeed DOMAIN ${limits.link / LIBVIRT_UNIT}`);
  }
  if (!isLongest && millis > 0n) {
    libvirt.push(`virsh migrate-setmaxdowntime DOMAIN ${millis}`);
  }
  return {
    qemu: { words: qemu.join("\n"), note: downtimeNote(limits, false) },
    libvirt: {
      words: libvirt.join("\n"),
      note: joinedNotes(linkNote(limits, quantityWords(link, RATE_UNITS)), downtimeNote(limits, true)),
    },
  };
}
