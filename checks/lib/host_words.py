"""What precopy-view says to QEMU and to libvirt of the same limits, worked out again."""

# The longest downtime that QEMU takes, and with it libvirt, in milliseconds.
LONGEST_MILLIS = 2_000_000


def host_lines(link: int, millis: int) -> list[str]:
    """The lines for hypervisors, of a link in bytes a second and a downtime for pages."""
    return [
        f"QEMU: migrate_set_parameter max-bandwidth {link}B",
        f"QEMU: migrate_set_parameter downtime-limit {millis}"
        if millis <= LONGEST_MILLIS
        else "QEMU: takes a downtime of at most 2,000 s",
        f"libvirt: virsh migrate-setspeed DOMAIN {link >> 20}"
        if link >> 20
        else "libvirt: takes whole MiB a second, and the link has less than one",
        f"libvirt: virsh migrate-setmaxdowntime DOMAIN {millis}"
        if 1 <= millis <= LONGEST_MILLIS
        else "libvirt: takes a downtime of 1 ms to 2,000 s",
    ]


def is_command(line: str) -> bool:
    """Whether a line has words for a hypervisor. Else it says what that does not take."""
    return ": takes " not in line


def sentence_of(line: str) -> str:
    """A line that is no command, as a sentence."""
    return line.replace(": ", " ", 1) + "."


def hosts_member(link: int, millis: int) -> dict:
    """The same as a member of a document."""
    mib = {"bandwidth_mib": link >> 20} if link >> 20 else {}
    return {"bandwidth_bytes": link, **mib, "down_milliseconds": millis}
