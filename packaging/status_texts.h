/* Made by dev/interface from include/precopy.h: the cases of precopy_strerror. */
/* clang-format off */
    case PRECOPY_OK:
        return "done";
    case PRECOPY_SHORT_HEADER:
        return "trace E1: it has fewer than the 16 bytes of a header";
    case PRECOPY_BAD_MAGIC:
        return "trace E2: it does not begin with PCWT";
    case PRECOPY_BAD_VERSION:
        return "trace E3: its version is not 1 or 2";
    case PRECOPY_BAD_SHIFT:
        return "trace E4: its pages do not have 16 to 4,096 bytes";
    case PRECOPY_BAD_RESERVED:
        return "trace E5: byte 6 or 7 is not 0";
    case PRECOPY_BAD_PAGES:
        return "trace E6: it does not have 1 to 65,536 pages";
    case PRECOPY_TOO_MANY_WRITES:
        return "trace E7: it has more than 1,048,576 writes";
    case PRECOPY_SHORT_RECORD:
        return "trace E8: it ends within this record";
    case PRECOPY_TICK_ORDER:
        return "trace E9: the tick is below that of the previous record";
    case PRECOPY_TICK_TOO_LARGE:
        return "trace E10: the tick is 2^40 or more";
    case PRECOPY_PAGE_OUT_OF_RANGE:
        return "trace E11: the guest does not have the page";
    case PRECOPY_EMPTY_WRITE:
        return "trace E12: the write has no bytes, and is no release";
    case PRECOPY_OUT_OF_PAGE:
        return "trace E13: the write goes beyond its page";
    case PRECOPY_TRAILING_BYTES:
        return "trace E14: bytes follow the last record";
    case PRECOPY_TOO_LONG:
        return "trace E15: it has more than 2^28 bytes";
    case PRECOPY_NO_MEMORY:
        return "memory ran out";
    case PRECOPY_BAD_MIN:
        return "settings S1: min is not 1 to 1,000,000";
    case PRECOPY_BAD_MAX:
        return "settings S2: max is not min to 1,000,000";
    case PRECOPY_BAD_INCREMENT:
        return "settings S3: increment is more than 1,000,000";
    case PRECOPY_BAD_THRESHOLD:
        return "settings S4: threshold is not 1 to 65,536";
    case PRECOPY_BAD_ROUNDS:
        return "settings S5: rounds is not 1 to 64";
    case PRECOPY_BAD_WINDOW:
        return "settings S6: window is not 1 to 2^40";
    case PRECOPY_BAD_HOT:
        return "settings S7: hot is not 1 to 1,048,576";
    case PRECOPY_BAD_START:
        return "settings S8: start is 2^40 or more";
    case PRECOPY_BAD_BASE:
        return "settings S10: base is after start";
    case PRECOPY_BAD_SIZE:
        return "a struct of settings, a question or starts has another size than the library knows";
    case PRECOPY_FRAME_SHORT:
        return "frame F1: a frame is cut off";
    case PRECOPY_FRAME_PAGE:
        return "frame F2: a page is not below the number of pages";
    case PRECOPY_FRAME_STAMP:
        return "frame F3: a stamp is greater than the number of writes";
    case PRECOPY_FRAME_KIND:
        return "frame F4: a kind is not 0 or 1";
    case PRECOPY_FRAME_ZEROS:
        return "frame F5: a page of zeros comes byte by byte";
    case PRECOPY_SHORT_BUFFER:
        return "a buffer is too short for what belongs there";
    case PRECOPY_PAGE_LENGTH:
        return "the number of bytes is not that of a page";
    case PRECOPY_MEMORY_LENGTH:
        return "the length of memory is not that of all pages";
    case PRECOPY_PAGE_COUNT:
        return "there is not an element for each page";
    case PRECOPY_PAGE_MISSING:
        return "a page did not come";
    case PRECOPY_STREAM_SIZES:
        return "the streams do not have as many bytes as their sizes say";
    case PRECOPY_NO_PAGE:
        return "the guest does not have the page";
    case PRECOPY_BACKWARDS:
        return "a step ends before it begins";
    case PRECOPY_NO_VERSION:
        return "no write to the page has the place of the stamp";
    case PRECOPY_AFTER_STOP:
        return "the stamp is of a write after the stop";
    case PRECOPY_OLDER:
        return "a frame of the page with a greater stamp came before in the stream";
    case PRECOPY_OTHER_BYTES:
        return "the bytes are not those of the page at the stamp";
    case PRECOPY_PAGE_BEHIND:
        return "a page is not at its version at the stop";
    case PRECOPY_BAD_TICK:
        return "question: a tick is not 1 microsecond to 1 second";
    case PRECOPY_BAD_PAGE:
        return "question: a page does not have 16 to 4,096 bytes";
    case PRECOPY_BAD_SAMPLE:
        return "question: not 1 page to all of the guest were sampled, or it has more than 2^32";
    case PRECOPY_BAD_LINK:
        return "question: the rate of the link is not 1 to 1,000,000 pages per 1,000 ticks; take another tick";
    case PRECOPY_BAD_FIRST:
        return "question: the rate of the first round is not 1 page per 1,000 ticks to that of the link";
    case PRECOPY_BAD_RESERVE:
        return "question: the reserve is longer than the downtime";
    case PRECOPY_BAD_DOWNTIME:
        return "question: more than 65,535 pages go over the link within the downtime";
    case PRECOPY_OTHER_PAGES:
        return "the pages of the trace have another size than the question says";
    case PRECOPY_MORE_PAGES:
        return "the trace has more pages than the question says were sampled";
    case PRECOPY_TOO_MANY_STARTS:
        return "there are more than 4,096 starts; take them further apart";
