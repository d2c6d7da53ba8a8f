#include "keys.h"

#include <stdio.h>

static const char *const CLASSES[] = {"C",  "C#", "D",  "D#", "E",  "F",
                                      "F#", "G",  "G#", "A",  "A#", "B"};

const char *key_name(uint32_t lane, char name[KEY_NAME])
{
    int key = (int)(lane % 128);
    snprintf(name, KEY_NAME, "%s%d", CLASSES[key % 12], key / 12 - 1);
    return name;
}

const char *lane_name(uint32_t lane, char name[KEY_NAME])
{
    char key[KEY_NAME];
    snprintf(name, KEY_NAME, "%u:%.5s", (unsigned)(lane / 128 % 100), key_name(lane, key));
    return name;
}
