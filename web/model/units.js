// Times, rates and sizes in an operator's units, as the controls say them. What they come to in ticks and pages is the
// module's answer.

/** Microseconds of a unit of time. */
export const TIME_UNITS = { us: 1n, ms: 1_000n, s: 1_000_000n };

/** Bytes a second of a unit of rate. */
export const RATE_UNITS = {
  Kbit: 125n, Mbit: 125_000n, Gbit: 125_000_000n,
  KB: 1_000n, MB: 1_000_000n, GB: 1_000_000_000n,
  KiB: 1n << 10n, MiB: 1n << 20n, GiB: 1n << 30n,
};

/** The least unit in which the first round's rate is shown: `Kbit`, in bytes a second. */
const RATE_GRAIN = 125n;

/** Into how many parts a per cent is cut: so finely that any rate of a first round is some share of its link. */
const PARTS_OF_PERCENT = 1_000_000;
const PARTS_OF_WHOLE = BigInt(100 * PARTS_OF_PERCENT);

/** How much a quantity is, in microseconds or bytes a second. */
export function amountOf(quantity) {
  return BigInt(quantity.amount);
}

/** A share of an amount, given in per cent. */
export function shareOf(amount, percent) {
  return (amount * BigInt(Math.round(percent * PARTS_OF_PERCENT))) / PARTS_OF_WHOLE;
}

/** The least per cent of an amount whose share is this part of it, or more. */
export function percentOf(part, amount) {
  return Number((part * PARTS_OF_WHOLE + amount - 1n) / amount) / PARTS_OF_PERCENT;
}

/** What a migration may take, in bytes a second and microseconds, from the state of the controls. */
export function limitsOf(state) {
  const link = amountOf(state.link);
  const share = shareOf(link, state.first);
  return {
    link,
    first: state.first === 100 ? link : share - (share % RATE_GRAIN),
    downtime: amountOf(state.downtime),
    reserve: amountOf(state.reserve),
  };
}

/** What ticks and pages of a trace stand for. The trace of a sample has `sampled` of the guest's `guest` pages. */
export function scaleOf(state, sizes) {
  const { part, whole } = state.sample ?? { part: sizes.pages, whole: sizes.pages };
  return {
    tick: amountOf(state.tick), page: BigInt(sizes.pageBytes), sampled: BigInt(part), guest: BigInt(whole),
    isSample: whole > part,
  };
}

/** A rate in pages of the trace per 1,000 ticks as bytes of the guest in some seconds, both whole. */
export function rateIn({ tick, page, sampled, guest }, rate) {
  return { bytes: BigInt(rate) * page * guest * 1_000n, seconds: sampled * tick };
}

/** How long some ticks are, in microseconds. */
export function microsOf(scale, ticks) {
  return BigInt(ticks) * scale.tick;
}
