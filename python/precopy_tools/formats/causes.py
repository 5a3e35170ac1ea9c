"""Why a trace is refused, by the name of the refusal. Made by dev/interface from include/precopy.h."""

CAUSES = {
    "E1": "it has fewer than the 16 bytes of a header",
    "E2": "it does not begin with PCWT",
    "E3": "its version is not 1 or 2",
    "E4": "its pages do not have 16 to 4,096 bytes",
    "E5": "byte 6 or 7 is not 0",
    "E6": "it does not have 1 to 65,536 pages",
    "E7": "it has more than 1,048,576 writes",
    "E8": "it ends within this record",
    "E9": "the tick is below that of the previous record",
    "E10": "the tick is 2^40 or more",
    "E11": "the guest does not have the page",
    "E12": "the write has no bytes, and is no release",
    "E13": "the write goes beyond its page",
    "E14": "bytes follow the last record",
    "E15": "it has more than 2^28 bytes",
    "E16": "memory ran out",
}
