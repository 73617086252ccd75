// Reads an ELF file of x86-64. Every offset and length in it is checked before it is used.
#include "image.h"
#include <elf.h>
#include <fcntl.h>
#include <stddef.h>
#include <stdlib.h>
#include <string.h>
#include <sys/stat.h>
#include <unistd.h>

enum { MOST_BYTES = 1 << 30 };

static uint8_t *read_whole(const char *path, size_t *size) {
    int fd = open(path, O_RDONLY | O_CLOEXEC);
    struct stat about;
    uint8_t *bytes = NULL;
    *size = 0;
    if (fd >= 0 && fstat(fd, &about) == 0 && S_ISREG(about.st_mode) && about.st_size > 0 && about.st_size < MOST_BYTES)
        bytes = malloc((size_t)about.st_size);
    while (bytes && *size < (size_t)about.st_size) {
        ssize_t n = read(fd, bytes + *size, (size_t)about.st_size - *size);
        if (n <= 0)
            break;
        *size += (size_t)n;
    }
    if (fd >= 0)
        close(fd);
    return bytes;
}

// The bytes of a place in the file, copied; 0 where it does not lie in the file.
static int copy_at(const Image *image, uint64_t at, void *into, size_t size) {
    if (at > image->size || image->size - at < size)
        return 0;
    memcpy(into, image->bytes + at, size);
    return 1;
}

static int header_of(const Image *image, Elf64_Ehdr *header) {
    return copy_at(image, 0, header, sizeof *header) && !memcmp(header->e_ident, ELFMAG, SELFMAG) &&
           header->e_ident[EI_CLASS] == ELFCLASS64 && header->e_ident[EI_DATA] == ELFDATA2LSB && header->e_machine == EM_X86_64;
}

static int section_at(const Image *image, const Elf64_Ehdr *header, unsigned k, Elf64_Shdr *section) {
    if (header->e_shentsize != sizeof *section || header->e_shoff > image->size)
        return 0;
    return copy_at(image, header->e_shoff + (uint64_t)k * sizeof *section, section, sizeof *section);
}

static Part bytes_of(const Image *image, const Elf64_Shdr *section) {
    Part none = {NULL, 0};
    if (section->sh_type == SHT_NOBITS || section->sh_flags & SHF_COMPRESSED || section->sh_offset > image->size ||
        image->size - section->sh_offset < section->sh_size)
        return none;
    Part part = {image->bytes + section->sh_offset, section->sh_size};
    return part;
}

// A text in a table of texts; "" where it does not end in the table.
static const char *text_in(Part texts, uint64_t at) {
    if (at >= texts.size || !memchr(texts.p + at, 0, texts.size - at))
        return "";
    return (const char *)texts.p + at;
}

Part image_section(const Image *image, const char *name) {
    Elf64_Ehdr header;
    Elf64_Shdr section, names;
    Part none = {NULL, 0};
    if (!header_of(image, &header) || !section_at(image, &header, header.e_shstrndx, &names))
        return none;
    Part texts = bytes_of(image, &names);
    for (unsigned k = 0; k < header.e_shnum && section_at(image, &header, k, &section); k++)
        if (!strcmp(text_in(texts, section.sh_name), name))
            return bytes_of(image, &section);
    return none;
}

static void read_segments(Image *image, const Elf64_Ehdr *header) {
    Elf64_Phdr segment;
    int seen = 0;
    for (unsigned k = 0; k < header->e_phnum && header->e_phentsize == sizeof segment && header->e_phoff <= image->size; k++) {
        if (!copy_at(image, header->e_phoff + (uint64_t)k * sizeof segment, &segment, sizeof segment))
            break;
        if (segment.p_type == PT_LOAD && !seen++)
            image->first = segment.p_vaddr & ~UINT64_C(0xfff);
        if (segment.p_type == PT_TLS) {
            image->tls_size = segment.p_memsz;
            image->tls_align = segment.p_align ? segment.p_align : 1;
        }
    }
}

static int by_value(const void *a, const void *b) {
    const Symbol *x = a, *y = b;
    return x->value < y->value ? -1 : x->value > y->value;
}

static void read_symbols(Image *image, const char *table, const char *names) {
    Part symbols = image_section(image, table), texts = image_section(image, names);
    size_t count = symbols.size / sizeof(Elf64_Sym);
    if (!count)
        return;
    image->symbols = calloc(count, sizeof *image->symbols);
    for (size_t k = 0; image->symbols && k < count; k++) {
        Elf64_Sym s;
        memcpy(&s, symbols.p + k * sizeof s, sizeof s);
        int type = ELF64_ST_TYPE(s.st_info);
        if (s.st_shndx == SHN_UNDEF || (type != STT_FUNC && type != STT_OBJECT && type != STT_TLS && type != STT_NOTYPE))
            continue;
        const char *name = text_in(texts, s.st_name);
        if (!*name)
            continue;
        Symbol symbol = {name, s.st_value, s.st_size, type};
        image->symbols[image->symbol_count++] = symbol;
    }
    if (image->symbols)
        qsort(image->symbols, image->symbol_count, sizeof *image->symbols, by_value);
}

Image *image_open(const char *path, const char **why) {
    Image *image = calloc(1, sizeof *image);
    Elf64_Ehdr header;
    *why = NULL;
    if (image)
        image->bytes = read_whole(path, &image->size);
    if (!image || !image->bytes)
        *why = "cannot be read";
    else if (!header_of(image, &header))
        *why = "is no program for x86-64";
    if (*why) {
        image_close(image);
        return NULL;
    }
    image->entry = header.e_entry;
    image->moves = header.e_type == ET_DYN;
    read_segments(image, &header);
    read_symbols(image, ".symtab", ".strtab");
    if (!image->symbol_count) {
        free(image->symbols);
        image->symbols = NULL;
        read_symbols(image, ".dynsym", ".dynstr");
    }
    image_read_lines(image);
    return image;
}

void image_close(Image *image) {
    if (!image)
        return;
    free(image->symbols);
    free(image->lines);
    free(image->bytes);
    free(image);
}

const Symbol *image_symbol(const Image *image, const char *name) {
    const Symbol *found = NULL;
    for (size_t k = 0; k < image->symbol_count; k++)
        if (!strcmp(image->symbols[k].name, name) && (!found || image->symbols[k].size > found->size))
            found = &image->symbols[k];
    return found;
}

// The first of a sorted table whose address, a field of 8 bytes, lies past the one asked for.
static size_t first_past(const void *table, size_t count, size_t each, size_t field, uint64_t address) {
    size_t low = 0, high = count;
    while (low < high) {
        size_t middle = low + (high - low) / 2;
        uint64_t here;
        memcpy(&here, (const char *)table + middle * each + field, sizeof here);
        if (here <= address)
            low = middle + 1;
        else
            high = middle;
    }
    return low;
}

const Symbol *image_function(const Image *image, uint64_t address) {
    size_t past = first_past(image->symbols, image->symbol_count, sizeof(Symbol), offsetof(Symbol, value), address);
    for (size_t k = past, tries = 0; k-- > 0 && tries < 64; tries++) {
        const Symbol *s = &image->symbols[k];
        if (s->type == STT_FUNC && address - s->value < (s->size ? s->size : 1))
            return s;
    }
    return NULL;
}

const Line *image_line(const Image *image, uint64_t address) {
    size_t low = first_past(image->lines, image->line_count, sizeof(Line), offsetof(Line, address), address);
    return low && image->lines[low - 1].file && image->lines[low - 1].line ? &image->lines[low - 1] : NULL;
}
