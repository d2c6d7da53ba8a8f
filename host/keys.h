/* Names of keys. */
#ifndef KEYS_H
#define KEYS_H

#include <stdint.h>

/* Room for a key's name, and for one with its channel. */
enum { KEY_NAME = 16 };

/* A lane's key as C4 (key 60), C#4 and so on. */
const char *key_name(uint32_t lane, char name[KEY_NAME]);

/* The same behind the channel, as 9:C4. */
const char *lane_name(uint32_t lane, char name[KEY_NAME]);

#endif
