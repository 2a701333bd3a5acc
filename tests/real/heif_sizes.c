/* Says which of the files libheif opens and what sizes it gives; still_sizes.c holds them to those of the proved library.
   It is a program of its own, because libheif is for this machine and the library for x86-64. libheif tells sizes of
   visible top-level images only, after all transforms. A file patched-X.hvc1.heif is X.avif with types renamed, which
   libheif takes for a broken HEVC file: there it is asked about X.avif. */
#include <libheif/heif.h>

#include "files.h"

/* what libheif is asked about: the file itself, or what it was before its types were renamed */
static const struct file *original(const struct file *f)
{
    char name[300];
    size_t letters = strlen(f->name);
    if (strncmp(f->name, "patched-", 8) || letters < 18) return f;
    snprintf(name, sizeof name, "%.*s.avif", (int)(letters - 8 - 10), f->name + 8);
    for (unsigned i = 0; i < count; i++)
        if (!strcmp(files[i].name, name)) return &files[i];
    return f;
}

static void say(unsigned i)
{
    const struct file *o = original(&files[i]);
    struct heif_context *file = heif_context_alloc();
    struct heif_error e = heif_context_read_from_memory_without_copy(file, o->head, o->n, NULL);
    if (e.code == heif_error_Ok) {
        heif_item_id ids[256];
        int images = heif_context_get_list_of_top_level_image_IDs(file, ids, 256);
        printf("opened %u\n", i);
        for (int k = 0; k < images; k++) {
            struct heif_image_handle *image;
            if (heif_context_get_image_handle(file, ids[k], &image).code == heif_error_Ok) {
                printf("size %u %u %d %d\n", i, ids[k], heif_image_handle_get_width(image), heif_image_handle_get_height(image));
                heif_image_handle_release(image);
            }
        }
    } else {
        printf("closed %u %s\n", i, e.message);
    }
    heif_context_free(file);
}

int main(int argc, char **argv)
{
    if (argc != 2 || !read_files(argv[1])) return fprintf(stderr, "usage: heif_sizes crates/reals/stdin\n"), 2;
    printf("libheif %s\n", heif_get_version());
    for (unsigned i = 0; i < count; i++) say(i);
    return 0;
}
