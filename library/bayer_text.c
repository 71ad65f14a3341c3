/* The texts of the library: plain C beside the proved code, which calls nothing of it. */
#include "bayer.h"

static const char texts[][72] = {
    "done",
    "width or height below 2 or above 4096",
    "phase above 3",
    "the mosaic's length is not width times height",
    "a buffer has a length that is not allowed",
    "a sample above 1023",
    "the file's length is not the header's count of blocks of 512 bytes",
    "a block's check differs",
    "the header's tag, width, height or phase is not allowed",
    "a block's number differs",
    "a filler byte or sample is not zero",
    "a black level above 255",
    "a sample more than 64 under the black level",
    "a number in the plane below 0 or above 1023",
};

static const char decisions[][32] = {
    "measured",
    "equal",
    "strong across",
    "strong down",
    "weak resolved across",
    "weak resolved down",
    "weak resolved to the mean",
};

const char *bayer_text(size_t number)
{
    return number < sizeof texts / sizeof texts[0] ? texts[number] : "no number that a call returns";
}

const char *bayer_decision_text(size_t code)
{
    return code < sizeof decisions / sizeof decisions[0] ? decisions[code] : "no decision code";
}

const char *bayer_version(void)
{
    return BAYER_VERSION;
}
