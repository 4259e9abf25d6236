// Takes a picture through the elements of profiles with Little CMS, and compares it with a picture that another engine wrote.
//     picture A2B0:FILE B2A0:FILE .. ENTERING LEAVING
// The elements are joined as they stand in the files: no white point is adapted and no Lab is converted. Pictures are PGM, PPM
// or PAM with raw samples of 8 or 16 bits. It ends with status 1 where the pictures do not fit.
#include <lcms2.h>
#include <stdint.h>
#include <stdio.h>
#include <stdlib.h>
#include <string.h>

typedef struct {
    unsigned width, height, channels, largest;
    uint8_t *samples;
} Picture;

static void need(int holds, const char *what, const char *name)
{
    if (!holds) {
        fprintf(stderr, "picture: %s: %s\n", name, what);
        exit(1);
    }
}

// The next word of a header, without comments. One character behind it is read too.
static void read_word(FILE *file, char *word, size_t room)
{
    size_t length = 0;
    int next = fgetc(file);
    while (next == ' ' || next == '\t' || next == '\r' || next == '\n' || next == '#') {
        while (next == '#' && (next = fgetc(file)) != '\n' && next != EOF)
            next = '#';
        next = fgetc(file);
    }
    for (; next > ' ' && length + 1 < room; next = fgetc(file))
        word[length++] = (char)next;
    word[length] = 0;
}

static unsigned read_number(FILE *file)
{
    char word[80];
    read_word(file, word, sizeof word);
    return (unsigned)strtoul(word, NULL, 10);
}

static void read_pam_header(FILE *file, Picture *picture)
{
    char word[80];
    for (read_word(file, word, sizeof word); *word && strcmp(word, "ENDHDR") != 0; read_word(file, word, sizeof word))
        if (strcmp(word, "WIDTH") == 0)
            picture->width = read_number(file);
        else if (strcmp(word, "HEIGHT") == 0)
            picture->height = read_number(file);
        else if (strcmp(word, "DEPTH") == 0)
            picture->channels = read_number(file);
        else if (strcmp(word, "MAXVAL") == 0)
            picture->largest = read_number(file);
}

static void read_header(FILE *file, Picture *picture, const char *name)
{
    char kind[80];
    read_word(file, kind, sizeof kind);
    if (strcmp(kind, "P7") == 0) {
        read_pam_header(file, picture);
        return;
    }
    need(strcmp(kind, "P5") == 0 || strcmp(kind, "P6") == 0, "not a PGM, PPM or PAM with raw samples", name);
    picture->channels = kind[1] == '5' ? 1 : 3;
    picture->width = read_number(file);
    picture->height = read_number(file);
    picture->largest = read_number(file);
}

static size_t sample_count(const Picture *picture)
{
    return (size_t)picture->width * picture->height * picture->channels;
}

static Picture read_picture(const char *name)
{
    Picture picture = {0};
    FILE *file = fopen(name, "rb");
    need(file != NULL, "cannot be opened", name);
    read_header(file, &picture, name);
    need(picture.largest == 255 || picture.largest == 65535, "the largest sample is not 255 or 65535", name);
    need(picture.channels <= 4 && sample_count(&picture) > 0, "it has no samples, or more than four channels", name);
    size_t length = sample_count(&picture) * (picture.largest == 255 ? 1 : 2);
    picture.samples = malloc(length + 1);
    need(picture.samples != NULL, "too large", name);
    need(fread(picture.samples, 1, length + 1, file) == length, "it has more or fewer samples than it says", name);
    fclose(file);
    return picture;
}

// A sample as it is stored: a byte, or two with the high one first.
static unsigned stored(const Picture *picture, size_t at)
{
    const uint8_t *samples = picture->samples;
    return picture->largest == 255 ? samples[at] : 256u * samples[2 * at] + samples[2 * at + 1];
}

// A profile's element as it stands in the file.
static cmsPipeline *element(const char *argument)
{
    int forwards = strncmp(argument, "A2B0:", 5) == 0;
    need(forwards || strncmp(argument, "B2A0:", 5) == 0, "neither A2B0:FILE nor B2A0:FILE", argument);
    cmsHPROFILE profile = cmsOpenProfileFromFile(argument + 5, "r");
    need(profile != NULL, "not a profile", argument);
    cmsPipeline *read = cmsReadTag(profile, forwards ? cmsSigAToB0Tag : cmsSigBToA0Tag);
    need(read != NULL, "it has no such element", argument);
    cmsPipeline *own = cmsPipelineDup(read);
    cmsCloseProfile(profile);
    return own;
}

static cmsPipeline *joined(char **arguments, int count)
{
    cmsPipeline *whole = element(arguments[0]);
    for (int i = 1; i < count; i++) {
        cmsPipeline *next = element(arguments[i]);
        need(cmsPipelineOutputChannels(whole) == cmsPipelineInputChannels(next) && cmsPipelineCat(whole, next),
             "it does not take what the element before it gives", arguments[i]);
        cmsPipelineFree(next);
    }
    return whole;
}

static void compare(const Picture *entering, const Picture *leaving, const cmsPipeline *whole)
{
    unsigned entering_unit = 65535 / entering->largest, leaving_unit = 65535 / leaving->largest, most = 0;
    size_t pixels = (size_t)entering->width * entering->height, differing = 0;
    double sum = 0;
    for (size_t pixel = 0; pixel < pixels; pixel++) {
        uint16_t in[4] = {0}, out[4] = {0};
        for (unsigned k = 0; k < entering->channels; k++)
            in[k] = (uint16_t)(entering_unit * stored(entering, pixel * entering->channels + k));
        cmsPipelineEval16(in, out, whole);
        for (unsigned k = 0; k < leaving->channels; k++) {
            int wanted = (int)((out[k] + leaving_unit / 2) / leaving_unit);
            unsigned apart = (unsigned)abs(wanted - (int)stored(leaving, pixel * leaving->channels + k));
            differing += apart > 0;
            most = apart > most ? apart : most;
            sum += apart;
        }
    }
    printf("%zu of %zu samples differ, by %u of %u at most, by %.4f in the mean\n", differing, sample_count(leaving), most,
           leaving->largest, sum / (double)sample_count(leaving));
}

int main(int argc, char **argv)
{
    if (argc < 4) {
        fprintf(stderr, "usage: picture A2B0:FILE B2A0:FILE .. ENTERING LEAVING\n");
        return 2;
    }
    cmsPipeline *whole = joined(argv + 1, argc - 3);
    Picture entering = read_picture(argv[argc - 2]), leaving = read_picture(argv[argc - 1]);
    need(entering.width == leaving.width && entering.height == leaving.height, "of another size", argv[argc - 1]);
    need(entering.channels == cmsPipelineInputChannels(whole), "of other channels than the first element takes", argv[argc - 2]);
    need(leaving.channels == cmsPipelineOutputChannels(whole), "of other channels than the last element gives", argv[argc - 1]);
    compare(&entering, &leaving, whole);
    cmsPipelineFree(whole);
    free(entering.samples);
    free(leaving.samples);
    return 0;
}
