// What the planner's module lays out as the library does. Made by dev/interface from include/precopy.h.

export const SETTINGS = {
  size: 80,
  wide: ["min", "max", "increment", "threshold", "rounds", "start", "window", "hot", "base"],
  narrow: ["hasBase", "skip"],
};

export const SUMS = {
  size: 40,
  wide: ["rounds", "reason", "stop", "down", "total"],
  narrow: [],
};

export const ROUND = {
  size: 48,
  wide: ["from", "to", "rate", "pages", "sent", "dirtied"],
  narrow: [],
};

export const QUESTION = {
  size: 120,
  wide: ["link", "first", "downtime", "reserve", "tick", "page", "sampled", "guest", "increment", "rounds", "start",
    "base"],
  narrow: ["hasFirst", "hasIncrement", "hasBase", "skip", "clark"],
};

export const ANSWER = {
  size: 88,
  wide: ["rounds", "reason", "stop", "down", "total", "left", "time", "bytes", "downtime", "recorded"],
  narrow: ["converges", "kept"],
};

export const ERRORS = {
  size: 32,
  wide: ["bytes", "time", "downtime"],
  narrow: ["hasErrors"],
};

export const REMEDIES = {
  size: 72,
  wide: ["link", "downtime", "speed", "endingLink", "endingStart"],
  narrow: ["hasLink", "hasDowntime", "hasSpeed", "hasEndingLink", "hasEndingStart", "isKept", "ends"],
};

export const FORECAST = {
  size: 48,
  wide: ["looks", "time", "bytes", "left", "downtime"],
  narrow: ["end", "kept"],
};

export const AGREEMENT = {
  size: 64,
  wide: ["draws", "drawsKnown", "drawsConverging", "drawsKept", "starts", "startsConverging", "startsKept"],
  narrow: ["converges", "kept"],
};

/** What is wrong with a trace, by the number of the refusal. */
export const TRACE_REFUSALS = {
  1: "it has fewer than the 16 bytes of a header",
  2: "it does not begin with PCWT",
  3: "its version is not 1 or 2",
  4: "its pages do not have 16 to 4,096 bytes",
  5: "byte 6 or 7 is not 0",
  6: "it does not have 1 to 65,536 pages",
  7: "it has more than 1,048,576 writes",
  8: "it ends within this record",
  9: "the tick is below that of the previous record",
  10: "the tick is 2^40 or more",
  11: "the guest does not have the page",
  12: "the write has no bytes, and is no release",
  13: "the write goes beyond its page",
  14: "bytes follow the last record",
  15: "it has more than 2^28 bytes",
  16: "memory ran out",
};
