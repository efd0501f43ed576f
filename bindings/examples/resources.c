/* resources: the types of resources that an image has, a line each, and its resources with type, name, language and bytes.
 *
 *     resources FILE */
#include "pe.h"
#include "example.h"

#include <inttypes.h>
#include <stdio.h>

/* How many resources and bytes of names are shown: a hostile tree can have more resources than the file has bytes, and all of
 * them one long name. */
enum { MOST_RESOURCES = 65535, MOST_BYTES = 1 << 26 };

static pe_c_view view;
static uint64_t shown_bytes;

/* Shows what names a type, a resource or a language: an id, or a name of up to 65,535 code units. */
static uint32_t show_part(const pe_c_resource_name *part)
{
    static char text[3 * 65535 + 1];
    pe_c_range shown = PE_C_EMPTY;
    uint32_t result = PE_C_DONE;
    printf(part->has_name ? " " : " #%" PRIu32, part->id);
    if (part->has_name)
        result = pe_c_utf16_text(view.bytes, view.length, &part->name, text, sizeof text, &shown.length);
    show_name((const uint8_t *)text, &shown);
    shown_bytes += shown.length;
    return result;
}

/* Whether one more may be shown after so many; where there is one and it may not, this says so. */
static int has_room(int count)
{
    int has = count < MOST_RESOURCES && shown_bytes < MOST_BYTES;
    if (!has)
        fprintf(stderr, "there are more\n");
    return has;
}

/* The entries of the first directory are the types. */
static uint32_t show_types(const pe_c_range *tree)
{
    pe_c_resource_directory root = PE_C_EMPTY;
    pe_c_resource_item item = PE_C_EMPTY;
    uint32_t result = pe_c_resource_root(&view, &root);
    for (int i = 0; result == PE_C_DONE; i++) {
        result = pe_c_next_resource_item(view.bytes, view.length, tree, &root.entries, &item);
        if (result != PE_C_DONE || !has_room(i))
            break;
        printf("type");
        result = show_part(&item.name);
        printf("\n");
    }
    return result;
}

static uint32_t show_resources(pe_c_leaf_walk *walk)
{
    pe_c_resource_leaf leaf = PE_C_EMPTY;
    uint32_t result = PE_C_DONE;
    for (int i = 0; result == PE_C_DONE; i++) {
        result = pe_c_next_resource_leaf(&view, walk, &leaf);
        if (result != PE_C_DONE || !has_room(i))
            break;
        printf("resource");
        const pe_c_resource_name *parts[] = {&leaf.resource_type, &leaf.name, &leaf.language};
        for (int part = 0; result == PE_C_DONE && part < 3; part++)
            result = show_part(parts[part]);
        if (result == PE_C_DONE)
            printf(" %" PRIu32, leaf.size);
        printf("\n");
    }
    return result;
}

int main(int argc, char **argv)
{
    if (argc != 2)
        return usage("resources FILE");
    pe_c_leaf_walk walk = PE_C_EMPTY;
    uint32_t result = read_image(argv[1], PE_C_PERMISSIVE, &view);
    if (result == PE_C_DONE)
        result = pe_c_resource_leaves(&view, &walk.leaves);
    if (result != PE_C_DONE)
        return status_of(result);
    result = show_types(&walk.leaves.tree);
    if (result == PE_C_DONE || result == PE_C_NOTHING)
        result = show_resources(&walk);
    return status_of(result);
}
