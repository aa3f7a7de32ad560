/* The words of tokens by their texts, for tests and tools that write scripts as text. */
#ifndef SHIGTHAPUL_SPELLED_H
#define SHIGTHAPUL_SPELLED_H

#include <ctype.h>
#include <stdlib.h>
#include <string.h>

#include "shigthapul.h"

/* The word of a sign or a keyword; 0, which is neither's, for another text. */
static inline uint16_t spelled(const char *text) {
    for (unsigned code = SHIGTHAPUL_SPlus; code <= SHIGTHAPUL_SDollar; code++)
        if (strcmp(text, shigthapul_symbol_text(code)) == 0)
            return shigthapul_word(SHIGTHAPUL_CLASS_OPERATOR, code);
    for (unsigned code = SHIGTHAPUL_KIf; code <= SHIGTHAPUL_KAsync; code++)
        if (strcmp(text, shigthapul_keyword_text(code)) == 0)
            return shigthapul_word(SHIGTHAPUL_CLASS_KEYWORD, code);
    return 0;
}

/* The class of a value or a name, by its first letter and by whether it has a point. */
static inline enum shigthapul_class spelled_class(const char *text) {
    if (isdigit((unsigned char)*text))
        return strchr(text, '.') == NULL ? SHIGTHAPUL_CLASS_INTEGER : SHIGTHAPUL_CLASS_FLOAT;
    return *text == '"'    ? SHIGTHAPUL_CLASS_STR
           : *text == '\'' ? SHIGTHAPUL_CLASS_CHAR
                           : SHIGTHAPUL_CLASS_IDENTIFIER;
}

/* The word of any token: a word in hexadecimal, an empty line, a sign, a keyword, a value, or else a name. */
static inline uint16_t spelled_token(const char *text) {
    if (*text == '#')
        return (uint16_t)strtoul(text + 1, NULL, 16);
    if (strcmp(text, "_E") == 0)
        return shigthapul_word(SHIGTHAPUL_CLASS_EMPTY, 0);
    uint16_t word = spelled(text);
    return word != 0 ? word : shigthapul_word(spelled_class(text), 0);
}

#endif
