/* heif_pixels FOLDER: what libheif shows of each still in FOLDER/list.txt: the primary picture with its transforms, and
   each coded picture without. still_pixels.c holds traces to it. It is a program of its own, because libheif is for this
   machine and the library for x86-64. Without FOLDER it says libheif's version.
   For each file: `file NAME`, `shown ID WIDE HIGH` and its colours, `coded ID WIDE HIGH` and its colours for each coded
   item, `end`; a colour is three bytes, red, green and blue. */
#include <libheif/heif.h>
#include <stdio.h>
#include <stdlib.h>
#include <string.h>

static const char *name;

static void must(struct heif_error e)
{
    if (e.code == heif_error_Ok) return;
    fprintf(stderr, "libheif %s: %s: %s\n", heif_get_version(), name, e.message);
    exit(2);
}

static void write_colours(const struct heif_image *image, int wide, int high)
{
    static const enum heif_channel channels[] = {heif_channel_R, heif_channel_G, heif_channel_B};
    const uint8_t *planes[3];
    int strides[3];
    for (int c = 0; c < 3; c++) planes[c] = heif_image_get_plane_readonly(image, channels[c], &strides[c]);
    for (int y = 0; y < high; y++)
        for (int x = 0; x < wide; x++)
            for (int c = 0; c < 3; c++) putchar(planes[c][(size_t)y * strides[c] + x]);
}

static void show(struct heif_context *file, const char *what, heif_item_id id, int bare)
{
    struct heif_image_handle *handle;
    struct heif_image *image;
    struct heif_decoding_options *options = heif_decoding_options_alloc();
    options->ignore_transformations = bare;
    must(heif_context_get_image_handle(file, id, &handle));
    must(heif_decode_image(handle, &image, heif_colorspace_RGB, heif_chroma_444, options));
    int wide = heif_image_get_primary_width(image), high = heif_image_get_primary_height(image);
    printf("%s %u %d %d\n", what, id, wide, high);
    write_colours(image, wide, high);
    heif_image_release(image);
    heif_image_handle_release(handle);
    heif_decoding_options_free(options);
}

static void show_file(const char *folder, char *line)
{
    char path[1000];
    heif_item_id primary;
    struct heif_context *file = heif_context_alloc();
    name = strtok(line, " \n");
    snprintf(path, sizeof path, "%s/avif/%s.avif", folder, name);
    must(heif_context_read_from_file(file, path, NULL));
    must(heif_context_get_primary_image_ID(file, &primary));
    printf("file %s\n", name);
    show(file, "shown", primary, 0);
    for (const char *id; (id = strtok(NULL, " \n"));) show(file, "coded", (heif_item_id)atoi(id), 1);
    printf("end\n");
    heif_context_free(file);
}

int main(int argc, char **argv)
{
    char line[1000];
    if (argc == 1) return puts(heif_get_version()) < 0;
    snprintf(line, sizeof line, "%s/list.txt", argv[1]);
    FILE *list = fopen(line, "r");
    if (!list) return perror(line), 2;
    while (fgets(line, sizeof line, list)) show_file(argv[1], line);
    fclose(list);
    return 0;
}
