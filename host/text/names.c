#include "text/names.h"

#include <stdio.h>
#include <string.h>

enum { OF_ITEM = 1, OF_DESK = 2 };

static const char *shown_name(const char *name, const char *what, uint32_t number,
                              char shown[NAME_SHOWN_BYTES])
{
    if (name != NULL && name[0] != '\0')
        snprintf(shown, NAME_SHOWN_BYTES, "%s", name);
    else
        snprintf(shown, NAME_SHOWN_BYTES, "%s %lu", what, (unsigned long)number);
    return shown;
}

/* Items and desks that do not exist may be asked for; they have no name. */
const char *item_name(const struct names *names, uint32_t item, char shown[NAME_SHOWN_BYTES])
{
    return shown_name(item < CHAFFDANCER_ITEMS ? names->items[item] : NULL, "item", item, shown);
}

const char *desk_name(const struct names *names, uint32_t desk, char shown[NAME_SHOWN_BYTES])
{
    return shown_name(desk < CHAFFDANCER_DESKS ? names->desks[desk] : NULL, "desk", desk, shown);
}

/* How many bytes of UTF-8 the next character takes; 0 if it is none that may be shown. */
static size_t character_bytes(const uint8_t *bytes, size_t length)
{
    static const uint32_t least[5] = {0, 0, 0xA0, 0x800, 0x10000};
    size_t count = bytes[0] < 0x80 ? 1 : bytes[0] >= 0xF0 ? 4 : bytes[0] >= 0xE0 ? 3 : 2, place;
    uint32_t character = bytes[0] & (0xFFU >> (count + 1));
    if (count == 1)
        return bytes[0] >= ' ' && bytes[0] <= '~' ? 1 : 0;
    if (bytes[0] < 0xC0 || bytes[0] > 0xF4 || count > length)
        return 0;
    for (place = 1; place < count; place++) {
        if ((bytes[place] & 0xC0U) != 0x80)
            return 0;
        character = character << 6 | (bytes[place] & 0x3FU);
    }
    if (character < least[count] || character > 0x10FFFF ||
        (character >= 0xD800 && character <= 0xDFFF))
        return 0;
    return count;
}

const char *name_fault(struct text name)
{
    const uint8_t *bytes = (const uint8_t *)name.start;
    size_t place = 0, count;
    if (name.length == 0)
        return "a name is missing";
    if (name.length > NAME_BYTES_MOST)
        return "a name has at most 32 bytes";
    if (name.start[0] == ' ' || name.start[name.length - 1] == ' ')
        return "a name neither begins nor ends with a blank";
    if (text_begins_with(name, "item ") || text_begins_with(name, "desk "))
        return "a name does not begin like a number's: item, desk";
    for (; place < name.length; place += count) {
        count = character_bytes(bytes + place, name.length - place);
        if (count == 0)
            return "a name has letters, digits, signs and blanks, in UTF-8";
    }
    return NULL;
}

static char *name_place(struct names *names, int of_desk, uint32_t number)
{
    return of_desk ? names->desks[number] : names->items[number];
}

int name_is_taken(const struct names *names, int of_desk, uint32_t number, struct text name)
{
    uint32_t other, count = of_desk ? CHAFFDANCER_DESKS : CHAFFDANCER_ITEMS;
    for (other = 0; other < count; other++) {
        const char *theirs = of_desk ? names->desks[other] : names->items[other];
        if (other != number && text_equals(name, theirs))
            return 1;
    }
    return 0;
}

void name_put(struct names *names, int of_desk, uint32_t number, struct text name)
{
    char *place = name_place(names, of_desk, number);
    memset(place, 0, NAME_BYTES_MOST + 1);
    memcpy(place, name.start, name.length);
}

static uint8_t *put_one(uint8_t *bytes, uint8_t what, uint32_t number, const char *name)
{
    size_t length = strlen(name);
    if (length == 0)
        return bytes;
    bytes[0] = what;
    bytes[1] = (uint8_t)number;
    bytes[2] = (uint8_t)length;
    memcpy(bytes + 3, name, length);
    return bytes + 3 + length;
}

size_t names_put(const struct names *names, uint8_t bytes[NAMES_BYTES_MOST])
{
    uint8_t *end = bytes;
    uint32_t number;
    for (number = 0; number < CHAFFDANCER_ITEMS; number++)
        end = put_one(end, OF_ITEM, number, names->items[number]);
    for (number = 0; number < CHAFFDANCER_DESKS; number++)
        end = put_one(end, OF_DESK, number, names->desks[number]);
    return (size_t)(end - bytes);
}

/* The bytes that the first name takes, once it is put; 0 if it is none. */
static size_t get_one(struct names *names, const uint8_t *bytes, size_t length)
{
    struct text name;
    int of_desk = bytes[0] == OF_DESK;
    if (length < 3 || length < (size_t)3 + bytes[2] || (bytes[0] != OF_ITEM && !of_desk) ||
        bytes[1] >= (of_desk ? CHAFFDANCER_DESKS : CHAFFDANCER_ITEMS))
        return 0;
    name.start = (const char *)bytes + 3;
    name.length = bytes[2];
    if (name_fault(name) != NULL)
        return 0;
    name_put(names, of_desk, bytes[1], name);
    return (size_t)3 + bytes[2];
}

int names_get(struct names *names, const uint8_t *bytes, size_t length)
{
    struct names found;
    size_t count;
    memset(&found, 0, sizeof found);
    for (; length > 0; bytes += count, length -= count) {
        count = get_one(&found, bytes, length);
        if (count == 0)
            return 0;
    }
    *names = found;
    return 1;
}
