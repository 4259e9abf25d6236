/*
 * Converts one colour through a profile.
 *
 *     convert         makes a small profile, converts a colour, and shows what a damaged profile leads to
 *     convert FILE    takes the profile from a file
 */
#include <inttypes.h>
#include <stdio.h>
#include <stdlib.h>
#include <string.h>

#include "newtwolfram.h"

/* The function once more, by the types that the library has: a header that says otherwise is not compiled. */
uint32_t newtwolfram_convert(const uint8_t *profile, size_t length, uint16_t colour[4]);

enum {
    CHANNELS = 4,
    RECORD = 132,        /* behind the header of 128 bytes and the number of records */
    ELEMENT = 144,       /* behind the one record */
    TABLES = 52,         /* where the tables of the element begin */
    ELEMENT_LENGTH = 124,
    PROFILE_LENGTH = ELEMENT + ELEMENT_LENGTH
};

static const uint16_t COLOUR[CHANNELS] = {52000, 30000, 10000, 0};

/* Lab counts for the corners of the RGB cube. Blue moves on from corner to corner, and red most seldom. */
static const uint16_t CORNERS[8][3] = {
    {0, 32768, 32768},     /* black */
    {21085, 53043, 5146},  /* blue */
    {57251, 10701, 54067}, /* green */
    {59470, 20454, 29158}, /* cyan */
    {34729, 53274, 49971}, /* red */
    {39364, 57907, 17203}, /* magenta */
    {63387, 27238, 56960}, /* yellow */
    {65280, 32768, 32768}, /* white */
};

/* Writes a number, high byte first, and returns where the next one goes. */
static uint8_t *put(uint8_t *at, int bytes, uint32_t number)
{
    for (int i = 0; i < bytes; i++)
        at[i] = (uint8_t)(number >> 8 * (bytes - 1 - i));
    return at + bytes;
}

/* Three tables of two entries, from 0 to 65,535, that change nothing. */
static uint8_t *put_straight_tables(uint8_t *at)
{
    for (int channel = 0; channel < 3; channel++) {
        at = put(at, 2, 0);
        at = put(at, 2, 65535);
    }
    return at;
}

/* A profile from RGB to Lab: a lut16 with 2 grid points. What the engine does not look at is 0. */
static void make_profile(uint8_t profile[PROFILE_LENGTH])
{
    uint8_t *element = profile + ELEMENT;
    uint8_t *at;

    memset(profile, 0, PROFILE_LENGTH);
    put(profile, 4, PROFILE_LENGTH);
    memcpy(profile + 16, "RGB ", 4);
    memcpy(profile + 20, "Lab ", 4);
    memcpy(profile + 36, "acsp", 4);

    put(profile + 128, 4, 1); /* one record */
    memcpy(profile + RECORD, "A2B0", 4);
    put(profile + RECORD + 4, 4, ELEMENT);
    put(profile + RECORD + 8, 4, ELEMENT_LENGTH);

    memcpy(element, "mft2", 4);
    put(element + 8, 1, 3);      /* channels in */
    put(element + 9, 1, 3);      /* channels out */
    put(element + 10, 1, 2);     /* grid points */
    put(element + 12, 4, 65536); /* a matrix that changes nothing */
    put(element + 28, 4, 65536);
    put(element + 44, 4, 65536);
    put(element + 48, 2, 2); /* entries of an input table */
    put(element + 50, 2, 2); /* entries of an output table */
    at = put_straight_tables(element + TABLES);
    for (int corner = 0; corner < 8; corner++)
        for (int channel = 0; channel < 3; channel++)
            at = put(at, 2, CORNERS[corner][channel]);
    put_straight_tables(at);
}

static void print_colour(const uint16_t colour[CHANNELS])
{
    printf("%d %d %d %d", colour[0], colour[1], colour[2], colour[3]);
}

/* Converts COLOUR, prints what comes of it, and returns the number. */
static uint32_t convert(const uint8_t *profile, size_t length)
{
    uint16_t colour[CHANNELS];
    uint32_t number;

    memcpy(colour, COLOUR, sizeof colour);
    number = newtwolfram_convert(profile, length, colour);
    if (number == 0) {
        print_colour(COLOUR);
        printf(" becomes ");
        print_colour(colour);
        printf("\n");
    } else {
        printf("refused with number %" PRIu32 ", and the colour %s ", number,
               memcmp(colour, COLOUR, sizeof colour) == 0 ? "stands at" : "has changed to");
        print_colour(colour);
        printf("\n");
    }
    return number;
}

static int show(void)
{
    uint8_t profile[PROFILE_LENGTH];

    make_profile(profile);
    printf("a profile of %d bytes: ", PROFILE_LENGTH);
    convert(profile, PROFILE_LENGTH);
    profile[36] = 'A';
    printf("with Acsp for acsp: ");
    convert(profile, PROFILE_LENGTH);
    return EXIT_SUCCESS;
}

static int convert_file(const char *name)
{
    FILE *file = fopen(name, "rb");
    uint8_t *profile = NULL;
    long length = -1;
    int status = EXIT_FAILURE;

    if (file && fseek(file, 0, SEEK_END) == 0)
        length = ftell(file);
    if (length >= 0 && fseek(file, 0, SEEK_SET) == 0)
        profile = malloc((size_t)length + 1); /* one more, so that an empty file gets memory too */
    if (profile && fread(profile, 1, (size_t)length, file) == (size_t)length) {
        if (convert(profile, (size_t)length) == 0)
            status = EXIT_SUCCESS;
    } else {
        fprintf(stderr, "%s cannot be read\n", name);
    }
    free(profile);
    if (file)
        fclose(file);
    return status;
}

int main(int argc, char **argv)
{
    if (argc > 2) {
        fprintf(stderr, "usage: convert [FILE]\n");
        return EXIT_FAILURE;
    }
    return argc == 2 ? convert_file(argv[1]) : show();
}
