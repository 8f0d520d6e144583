/* What the archive tells of itself: its version, its level, and a sentence for each refusal. */
#include "wimmostry.h"

const char WIM_VERSION_SYMBOL[] = WIM_VERSION;

const char *wim_version(void)
{
    return WIM_VERSION_SYMBOL;
}

/* WIM_CPU is given where this is compiled. A processor that lacks the level can still run this: a
 * constant's address takes no vector register. */
const char *wim_cpu(void)
{
    return WIM_CPU;
}

/* The sentences are those of the header's table, to the letter; runs/declared compares them. */
const char *wim_refusal_text(uint32_t refusal)
{
    switch (refusal) {
    case WIM_DONE:
        return "done";
    case WIM_NO_STUDIO:
        return "the studio's number is over 7";
    case WIM_OUT_OF_STAGE:
        return "the session's stage does not allow this call with this scheme";
    case WIM_OUT_OF_TURN:
        return "no begin for this part or end, a part past its row, or rows missing";
    case WIM_NO_SCHEME:
        return "the scheme is not 0 to 5";
    case WIM_NO_RULE:
        return "the rule is not 14 or 16";
    case WIM_LENGTH:
        return "an input's length is not the fixed one (streams, hashes: over 65536)";
    case WIM_ROOM:
        return "an output buffer is shorter than the answer";
    case WIM_NOT_ASCENDING:
        return "the table of noise is not strictly ascending";
    case WIM_PUBLIC_OVER:
        return "a lent public number is q or more";
    case WIM_MESSAGE_OVER:
        return "a number of the message is q or more";
    case WIM_BLANK:
        return "a message's packed part is all zero bytes";
    case WIM_SECRET_BEYOND:
        return "a secret or noise value lies beyond the largest noise";
    case WIM_RAN_OUT:
        return "the stream held fewer than 1024 numbers";
    case WIM_NEWER_FORMAT:
        return "the text of settings is in a newer format than the reader's";
    case WIM_MISFIT:
        return "the text is no settings, or a byte of the label is not allowed";
    default:
        return "unknown refusal";
    }
}
