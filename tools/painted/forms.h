/* The forms that nest, what stands innermost in them, and flat forms, as texts; and the token words of a text. */
#ifndef STACK_FORMS_H
#define STACK_FORMS_H

#include <stdbool.h>
#include <string.h>

#include "spelled.h"

enum kind { AN_EXPRESSION, A_STATEMENT };

/* A form is one expression or statement, with a hole for another between two texts. */
struct form {
    const char *name, *before, *after;
    enum kind is, holds;
    int order;     /* of an infix operator, whose right side goes on with operators of a higher order only; or 0 */
    bool swallows; /* a call's brackets behind it would belong to what is in it */
};

/* A form of expressions is called by its texts. */
#define AROUND(before, after) {before " .. " after, before, after, AN_EXPRESSION, AN_EXPRESSION, 0, false}
#define BEFORE(before) {before " ..", before, "", AN_EXPRESSION, AN_EXPRESSION, 0, true}
#define PARAMETER(before) {before " .. => a", before, "=> a", AN_EXPRESSION, AN_EXPRESSION, 0, true}
#define INFIX(sign, order) {"a " sign " ..", "a " sign, "", AN_EXPRESSION, AN_EXPRESSION, order, true}

static const struct form EXPRESSIONS[] = {
    BEFORE("++"), BEFORE("--"), BEFORE("!"), BEFORE("~"),
    AROUND("(", ")"),
    AROUND("[", "]"), AROUND("[ a ,", "]"),
    AROUND("{", ": a }"), AROUND("{ a :", "}"), AROUND("{ a : a ,", ": a }"), AROUND("{ a : a , a :", "}"),
    PARAMETER("lambda"), PARAMETER("lambda a ,"), BEFORE("lambda a =>"),
    AROUND("a (", ")"), AROUND("a ( a ,", ")"), AROUND("a . a ( ) (", ")"),
    AROUND("a [", "]"), AROUND("a [ a ] [", "]"),
    BEFORE("$"), BEFORE("$ ."),
    AROUND("thread", "( )"), AROUND("async", "( )"),
    INFIX("=", 1), INFIX("+=", 1), INFIX("-=", 1), INFIX("*=", 1), INFIX("/=", 1), INFIX("&=", 1), INFIX("|=", 1),
    INFIX("%=", 1), INFIX("||", 2), INFIX("&&", 3), INFIX("|", 4), INFIX("&", 5), INFIX("==", 6), INFIX("!=", 6),
    INFIX(">=", 7), INFIX(">", 7), INFIX("<=", 7), INFIX("<", 7), INFIX("+", 8), INFIX("-", 8), INFIX("*", 9),
    INFIX("/", 9), INFIX("%", 9),
};

/* The body that a head has, before a tail or with none: its first statement, and one behind another. */
#define BODY_BEFORE(name, head, tail) \
    {name, head " {", "} " tail, A_STATEMENT, A_STATEMENT, 0, false}, \
    {name ", behind another", head " { break ;", "} " tail, A_STATEMENT, A_STATEMENT, 0, false}
#define BODY(name, head) BODY_BEFORE(name, head, "")

static const struct form BODIES[] = {
    BODY("if body", "if ( a )"),
    BODY_BEFORE("if body before else", "if ( a )", "else { }"),
    BODY("else body", "if ( a ) { } else"),
    BODY("while body", "while ( a )"),
    BODY("for body", "for a in a =>"),
    BODY("foreach body", "foreach a , a , a =>"),
    BODY("func body", "func a ( )"),
    BODY("func body behind parameters", "func a ( a , a )"),
    BODY_BEFORE("try body", "try", "catch a { }"),
    BODY_BEFORE("try body before finally", "try", "catch a { } finally { }"),
    BODY("catch body", "try { } catch a"),
    BODY("finally body", "try { } catch a { } finally"),
};

#define TAKES(name, before, after) {name, before, after, A_STATEMENT, AN_EXPRESSION, 0, false}

static const struct form TAKERS[] = {
    TAKES("expression statement", "", ""),
    TAKES("var", "var a =", ""),
    TAKES("const", "const a =", ""),
    TAKES("return", "return", ""),
    TAKES("throw", "throw", ""),
    TAKES("assert value", "assert", ", a"),
    TAKES("assert action", "assert a ,", ""),
    TAKES("if condition", "if (", ") { }"),
    TAKES("while condition", "while (", ") { }"),
    TAKES("for target", "for", "in a => { }"),
    TAKES("for iterator", "for a in", "=> { }"),
    TAKES("foreach iterator", "foreach", ", a , a => { }"),
    TAKES("foreach index", "foreach a ,", ", a => { }"),
    TAKES("foreach element", "foreach a , a ,", "=> { }"),
    TAKES("func parameter", "func a (", ") { }"),
    TAKES("func parameter behind another", "func a ( a ,", ") { }"),
    TAKES("catch exception", "try { } catch", "{ }"),
};

/* What stands innermost, with the number of its refusal, or 0. */
struct leaf {
    const char *text;
    enum kind is;
    uint32_t refusal;
};

#define VALUE(text) {text, AN_EXPRESSION, 0}
#define REFUSED_VALUE(text, refusal) {text, AN_EXPRESSION, SHIGTHAPUL_REFUSED_##refusal}
#define STATEMENT(text) {text, A_STATEMENT, 0}
#define REFUSED_STATEMENT(text, refusal) {text, A_STATEMENT, SHIGTHAPUL_REFUSED_##refusal}

static const struct leaf LEAVES[] = {
    VALUE("a"), VALUE("1"), VALUE("1.5"), VALUE("'c'"), VALUE("\"s\""), VALUE("true"), VALUE("none"),
    VALUE("a . a . a"), VALUE("a ( )"), VALUE("a ++"), VALUE("[ ]"), VALUE("{ }"),
    REFUSED_VALUE("+", INVALID_SYMBOL),
    REFUSED_VALUE("in", NOT_IMPLEMENTED),
    REFUSED_VALUE("_I", INVALID_TOKEN),
    REFUSED_VALUE("a . a . +", INVALID_IDENTIFIER),
    REFUSED_VALUE("lambda ;", INVALID_SYNTAX),
    STATEMENT("break ;"), STATEMENT("continue ;"), STATEMENT("return ;"), STATEMENT("var a ;"), STATEMENT("_E"),
    REFUSED_STATEMENT("break a", BREAK_WITHOUT_SEMICOLON),
    REFUSED_STATEMENT("const a ;", CONST_WITHOUT_VALUE),
    REFUSED_STATEMENT("func (", FUNC_WITHOUT_NAME),
    REFUSED_STATEMENT("try a", INVALID_SYNTAX),
};

/* Flat forms: a head, a part as often as there is room, and a tail. Most make trees as deep as they are long. */
enum reach { ANYWHERE, IN_STATEMENTS, IN_SCRIPTS }; /* by the first function that takes it, as in calls.h */

struct flat {
    const char *head, *part, *tail;
    enum reach reach;
};

static const struct flat FLATS[] = {
    {"a", "= a", "", ANYWHERE},
    {"a", "+ a", "", ANYWHERE},
    {"a", "+ a * a", "", ANYWHERE},
    {"a", "( )", "", ANYWHERE},
    {"a", "( a )", "", ANYWHERE},
    {"a", "++", "", ANYWHERE},
    {"a", "[ a ]", "", ANYWHERE},
    {"a", ". a", "", ANYWHERE},
    {"[ a", ", a", "]", ANYWHERE},
    {"{ a : a", ", a : a", "}", ANYWHERE},
    {"a ( a", ", a", ")", ANYWHERE},
    {"lambda a", ", a", "=> a", ANYWHERE},
    {"func a ( a", ", a", ") { }", IN_STATEMENTS},
    {"if ( a ) {", "a", "}", IN_STATEMENTS},
    {"if ( a ) { } else {", "a ;", "}", IN_STATEMENTS},
    {"while ( a ) {", "_E", "}", IN_STATEMENTS},
    {"try { } catch a {", "break ;", "}", IN_STATEMENTS},
    {"", "a", "", IN_SCRIPTS},
    {"", ";", "", IN_SCRIPTS},
    {"", "_E", "", IN_SCRIPTS},
    {"", "var a = a ;", "", IN_SCRIPTS},
    {"", "if ( a ) { }", "", IN_SCRIPTS},
    {"", "func a ( ) { return a ; }", "", IN_SCRIPTS},
};

#define COUNT(table) (sizeof(table) / sizeof *(table))

/* The word of a token by its text: a sign, a keyword, a value, a mark of a class, or else an identifier. */
static uint16_t word_of(const char *text) {
    static const struct {
        const char *text;
        enum shigthapul_class token_class;
    } OTHERS[] = {
        {"1", SHIGTHAPUL_CLASS_INTEGER}, {"1.5", SHIGTHAPUL_CLASS_FLOAT}, {"'c'", SHIGTHAPUL_CLASS_CHAR},
        {"\"s\"", SHIGTHAPUL_CLASS_STR}, {"_E", SHIGTHAPUL_CLASS_EMPTY}, {"_I", SHIGTHAPUL_CLASS_INVALID},
    };
    for (size_t other = 0; other < COUNT(OTHERS); other++)
        if (strcmp(text, OTHERS[other].text) == 0)
            return shigthapul_word(OTHERS[other].token_class, 0);
    uint16_t word = spelled(text);
    return word != 0 ? word : shigthapul_word(SHIGTHAPUL_CLASS_IDENTIFIER, 0);
}

/* The words of a text, whose tokens stand between blanks. */
enum { MOST_WORDS = 32 };

struct words {
    const char *text;
    uint16_t words[MOST_WORDS];
    size_t count;
};

static void read_text(struct words *words, const char *text) {
    words->text = text;
    words->count = 0;
    while (*text != '\0') {
        char token[16] = "";
        size_t length = strcspn(text, " ");
        words->words[words->count++] = word_of(memcpy(token, text, length));
        text += length + strspn(text + length, " ");
    }
}

/* The same, kept for the next time: the texts are the ones above, so they are known by where they stand. */
static const struct words *words_of(const char *text) {
    enum { KEPT = 4096 };
    static struct words kept[KEPT];
    size_t at = (uintptr_t)text % KEPT;
    if (kept[at].text != text)
        read_text(&kept[at], text);
    return &kept[at];
}

#endif
