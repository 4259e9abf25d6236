// Little CMS's part of what compare.sh sets side by side, with the lattices, curves and pictures that crates/bench makes.
//     littlecms compare ROUNDS   a line for each round: what, pixels, grid points, picture, nanoseconds, setting
//     littlecms leaving          a line for each row: what, pixels, grid points, picture, and the counts that leave
#include <lcms2.h>
#include <stdint.h>
#include <stdio.h>
#include <stdlib.h>
#include <string.h>
#include <time.h>

enum { PIXELS = 4096, TIMES = 100, OPENINGS = 50, CURVE = 256, ELEMENT_GRID = 17 };

typedef struct {
    const char *name;
    cmsUInt32Number entering, leaving;
    cmsColorSpaceSignature takes, gives;
    unsigned baked_grid;
} Kind;

static const Kind KINDS[] = {
    {"RGB8-RGB8", TYPE_RGB_8, TYPE_RGB_8, cmsSigRgbData, cmsSigRgbData, 33},
    {"RGB8-CMYK8", TYPE_RGB_8, TYPE_CMYK_8, cmsSigRgbData, cmsSigCmykData, 33},
    {"CMYK8-RGB8", TYPE_CMYK_8, TYPE_RGB_8, cmsSigCmykData, cmsSigRgbData, 17},
    {"RGB16-RGB16", TYPE_RGB_16, TYPE_RGB_16, cmsSigRgbData, cmsSigRgbData, 33},
};

// A way to send a row: through which lattice or element, and how the transform is made.
typedef struct {
    const char *what, *setting;
    unsigned grid;
    cmsUInt32Number flags;
} Way;

// The rounds to be timed; with none, the rows that leave are printed.
static unsigned rounds;

static void *made(void *thing)
{
    if (!thing) {
        fprintf(stderr, "littlecms: something was not made\n");
        exit(1);
    }
    return thing;
}

static uint16_t scrambled(uint32_t number)
{
    uint32_t once = number * 2654435761u;
    return (uint16_t)(((once ^ (once >> 15)) * 2246822519u) >> 16);
}

// A lattice's entry: a ramp through the whole table, with a little noise.
static uint16_t shaded(uint32_t number, uint32_t count)
{
    return (uint16_t)((uint64_t)number * 64512 / count + scrambled(number) / 64);
}

// A smooth picture's count: ramps along the row, one for each channel, with a little noise.
static uint16_t smooth(uint32_t number)
{
    uint32_t ramp = (4 * number + 20000 * (number % 4)) % 65536;
    uint32_t count = ramp + scrambled(number) / 256;
    return (uint16_t)(count < 65535 ? count : 65535);
}

static uint16_t input_curve(uint32_t index)
{
    return (uint16_t)(index * (index + 255) * 257 / 510);
}

static uint16_t output_curve(uint32_t index)
{
    return 65535 - input_curve(255 - index);
}

static cmsStage *curves(unsigned channels, uint16_t (*entry)(uint32_t))
{
    uint16_t table[CURVE];
    cmsToneCurve *all[4];
    for (uint32_t i = 0; i < CURVE; i++)
        table[i] = entry(i);
    for (unsigned k = 0; k < channels; k++)
        all[k] = made(cmsBuildTabulatedToneCurve16(NULL, CURVE, table));
    cmsStage *stage = made(cmsStageAllocToneCurves(NULL, channels, all));
    for (unsigned k = 0; k < channels; k++)
        cmsFreeToneCurve(all[k]);
    return stage;
}

static cmsStage *lattice(unsigned ins, unsigned outs, unsigned grid)
{
    uint32_t count = outs;
    for (unsigned k = 0; k < ins; k++)
        count *= grid;
    uint16_t *table = made(malloc(count * sizeof *table));
    for (uint32_t i = 0; i < count; i++)
        table[i] = shaded(i, count);
    cmsStage *stage = made(cmsStageAllocCLut16bit(NULL, grid, ins, outs, table));
    free(table);
    return stage;
}

// A lattice alone, or an element: input curves, a lattice and output curves.
static cmsPipeline *pipeline(const Kind *kind, unsigned grid, int element)
{
    unsigned ins = T_CHANNELS(kind->entering), outs = T_CHANNELS(kind->leaving);
    cmsPipeline *whole = made(cmsPipelineAlloc(NULL, ins, outs));
    if (element)
        cmsPipelineInsertStage(whole, cmsAT_END, curves(ins, input_curve));
    cmsPipelineInsertStage(whole, cmsAT_END, lattice(ins, outs, grid));
    if (element)
        cmsPipelineInsertStage(whole, cmsAT_END, curves(outs, output_curve));
    return whole;
}

static cmsHPROFILE profile(const Kind *kind, unsigned grid, int element)
{
    cmsHPROFILE link = made(cmsCreateProfilePlaceholder(NULL));
    cmsPipeline *whole = pipeline(kind, grid, element);
    cmsSetProfileVersion(link, 2.1);
    cmsSetDeviceClass(link, cmsSigLinkClass);
    cmsSetColorSpace(link, kind->takes);
    cmsSetPCS(link, kind->gives);
    if (!cmsWriteTag(link, cmsSigAToB0Tag, whole))
        made(NULL);
    cmsPipelineFree(whole);
    return link;
}

static double now(void)
{
    struct timespec time;
    clock_gettime(CLOCK_MONOTONIC, &time);
    return 1e9 * (double)time.tv_sec + (double)time.tv_nsec;
}

// A row of pixels, as many samples as the format has.
static void *row(cmsUInt32Number format, uint16_t (*count)(uint32_t))
{
    unsigned channels = T_CHANNELS(format), wide = T_BYTES(format) == 2;
    uint8_t *bytes = made(malloc(PIXELS * channels * 2));
    for (uint32_t i = 0; i < PIXELS * channels; i++) {
        uint16_t value = count(4 * (i / channels) + i % channels);
        if (wide)
            ((uint16_t *)bytes)[i] = value;
        else
            bytes[i] = (uint8_t)((value + 128) / 257);
    }
    return bytes;
}

// A row's samples, as counts of 16 bits.
static void print_row(const void *row, cmsUInt32Number format)
{
    int wide = T_BYTES(format) == 2;
    for (unsigned i = 0; i < PIXELS * T_CHANNELS(format); i++)
        printf(" %d", wide ? ((const uint16_t *)row)[i] : 257 * ((const uint8_t *)row)[i]);
    printf("\n");
}

// Sends one picture, and prints how long a pixel took in each round, or else the row that leaves.
static void send(const Kind *kind, const Way *way, cmsHTRANSFORM transform, const char *picture, uint16_t (*count)(uint32_t))
{
    void *entering = row(kind->entering, count), *leaving = made(malloc(PIXELS * 8));
    for (unsigned round = 0; round < rounds; round++) {
        double start = now();
        for (unsigned i = 0; i < TIMES; i++)
            cmsDoTransform(transform, entering, leaving, PIXELS);
        double spent = (now() - start) / TIMES / PIXELS;
        printf("%s %s %u %s %.1f %s\n", way->what, kind->name, way->grid, picture, spent, way->setting);
    }
    if (rounds == 0) {
        cmsDoTransform(transform, entering, leaving, PIXELS);
        printf("%s %s %u %s", way->what, kind->name, way->grid, picture);
        print_row(leaving, kind->leaving);
    }
    free(entering);
    free(leaving);
}

// Sends both pictures one way. White is left as the lattice has it.
static void send_both(const Kind *kind, const Way *way, cmsHPROFILE link)
{
    cmsUInt32Number flags = way->flags | cmsFLAGS_NOWHITEONWHITEFIXUP;
    cmsHTRANSFORM transform =
        made(cmsCreateTransform(link, kind->entering, NULL, kind->leaving, INTENT_PERCEPTUAL, flags));
    send(kind, way, transform, "noise", scrambled);
    send(kind, way, transform, "smooth", smooth);
    cmsDeleteTransform(transform);
}

// Each way twice where times are wanted: with the last pixel kept, as Little CMS does unless told otherwise, and without.
static void send_each(const Kind *kind, Way way, cmsHPROFILE link)
{
    way.setting = "kept";
    if (rounds)
        send_both(kind, &way, link);
    way.setting = "unkept";
    way.flags |= cmsFLAGS_NOCACHE;
    send_both(kind, &way, link);
}

// Rows through a link: first optimised to a lattice of as many grid points, then, where Little CMS would choose another number
// of them by itself, to that one.
static void send_through_link(const Kind *kind, unsigned grid)
{
    unsigned chosen = T_CHANNELS(kind->entering) == 4 ? 17 : 33;
    cmsHPROFILE link = profile(kind, grid, 0);
    send_each(kind, (Way){"link", "", grid, cmsFLAGS_GRIDPOINTS(grid)}, link);
    if (grid != chosen && rounds)
        send_each(kind, (Way){"chosen", "", grid, 0}, link);
    cmsCloseProfile(link);
}

static void send_directly(const Kind *kind)
{
    cmsHPROFILE link = profile(kind, ELEMENT_GRID, 1);
    send_each(kind, (Way){"direct", "", ELEMENT_GRID, cmsFLAGS_NOOPTIMIZE}, link);
    cmsCloseProfile(link);
}

static cmsInt32Number sampled(const cmsUInt16Number in[], cmsUInt16Number out[], void *element)
{
    cmsPipelineEval16(in, out, element);
    return TRUE;
}

// Fills a lattice through an element, once, and prints how long a node took.
static void bake(const Kind *kind)
{
    unsigned ins = T_CHANNELS(kind->entering), outs = T_CHANNELS(kind->leaving);
    cmsPipeline *element = pipeline(kind, ELEMENT_GRID, 1);
    cmsStage *baked = made(cmsStageAllocCLut16bit(NULL, kind->baked_grid, ins, outs, NULL));
    double nodes = 1;
    for (unsigned k = 0; k < ins; k++)
        nodes *= kind->baked_grid;
    double start = now();
    cmsStageSampleCLut16bit(baked, sampled, element, 0);
    printf("bake %s %u - %.1f -\n", kind->name, kind->baked_grid, (now() - start) / nodes);
    cmsStageFree(baked);
    cmsPipelineFree(element);
}

// Opens a profile from memory many times, with its element, and prints how long it took once.
static void open_profile(const Kind *kind)
{
    cmsUInt32Number length = 0;
    cmsHPROFILE link = profile(kind, 33, 1);
    cmsSaveProfileToMem(link, NULL, &length);
    void *bytes = made(malloc(length));
    if (!cmsSaveProfileToMem(link, bytes, &length))
        made(NULL);
    cmsCloseProfile(link);
    double start = now();
    for (unsigned i = 0; i < OPENINGS; i++) {
        cmsHPROFILE opened = made(cmsOpenProfileFromMem(bytes, length));
        made(cmsReadTag(opened, cmsSigAToB0Tag));
        cmsCloseProfile(opened);
    }
    printf("open %s 33 - %.1f -\n", kind->name, (now() - start) / OPENINGS);
    free(bytes);
}

int main(int argc, char **argv)
{
    int times = argc == 3 && strcmp(argv[1], "compare") == 0;
    if (!times && !(argc == 2 && strcmp(argv[1], "leaving") == 0)) {
        fprintf(stderr, "usage: littlecms compare ROUNDS, or littlecms leaving\n");
        return 2;
    }
    rounds = times ? (unsigned)atoi(argv[2]) : 0;
    for (const Kind *kind = KINDS; kind < KINDS + sizeof KINDS / sizeof *KINDS; kind++) {
        send_through_link(kind, 17);
        send_through_link(kind, 33);
        send_directly(kind);
        for (unsigned round = 0; round < rounds; round++)
            bake(kind);
    }
    for (unsigned round = 0; round < rounds; round++)
        open_profile(KINDS + 1);
    return 0;
}
