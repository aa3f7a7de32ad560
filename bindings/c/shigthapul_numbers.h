/* The numbers of Shigthapul by name: refusals, kinds and marks of rows, token words; included by shigthapul.h. */
#ifndef SHIGTHAPUL_NUMBERS_H
#define SHIGTHAPUL_NUMBERS_H

#include <stdbool.h>
#include <stdint.h>

/* Each table below has a line for each member, X(name, number, text), and makes two things of it: an enum with the
   names, and a function from a number to its text, "?" for any other number. */
#define SHIGTHAPUL_MEMBER(name, number, text) name = number,
#define SHIGTHAPUL_CASE(name, number, text) \
    case number: \
        return text;
#define SHIGTHAPUL_TABLE(what, TABLE) \
    enum shigthapul_##what { TABLE(SHIGTHAPUL_MEMBER) }; \
    static inline const char *shigthapul_##what##_text(uint64_t number) { \
        switch (number) { TABLE(SHIGTHAPUL_CASE) } \
        return "?"; \
    }

/* The refusals. */
#define SHIGTHAPUL_REFUSALS(X) \
    X(SHIGTHAPUL_REFUSED_BAD_ARRAY, 1, "the array of tokens: its length, a bad word, EOF too early or missing") \
    X(SHIGTHAPUL_REFUSED_TOO_DEEP, 2, "nested too deep") \
    X(SHIGTHAPUL_REFUSED_NO_ROOM, 3, "no row or no room left") \
    X(SHIGTHAPUL_REFUSED_BAD_START, 4, "the start place lies outside the array") \
    X(SHIGTHAPUL_REFUSED_BAD_FIELD, 5, "the token file: a field is cut short, or has a bad tag or length") \
    X(SHIGTHAPUL_REFUSED_TOO_LONG, 6, "the token file: more than 60,000 bytes") \
    X(SHIGTHAPUL_REFUSED_INVALID_SYNTAX, 10, "a sign, a bracket or in is missing; one token in a group; an early end") \
    X(SHIGTHAPUL_REFUSED_INVALID_TOKEN, 11, "no expression starts with this token; or an if without )") \
    X(SHIGTHAPUL_REFUSED_INVALID_SYMBOL, 12, "no expression starts with this operator") \
    X(SHIGTHAPUL_REFUSED_NOT_IMPLEMENTED, 13, "no expression starts with this keyword") \
    X(SHIGTHAPUL_REFUSED_INVALID_IDENTIFIER, 14, "a name is missing") \
    X(SHIGTHAPUL_REFUSED_ASSERT_WITHOUT_ACTION, 15, "assert: a semicolon in place of the comma") \
    X(SHIGTHAPUL_REFUSED_ASSERT_WITHOUT_COMMA, 16, "assert: no comma") \
    X(SHIGTHAPUL_REFUSED_FUNC_WITHOUT_NAME, 17, "func: no name") \
    X(SHIGTHAPUL_REFUSED_IF_WITHOUT_BODY, 18, "if: no { behind the condition") \
    X(SHIGTHAPUL_REFUSED_CONST_WITHOUT_VALUE, 19, "const: no value") \
    X(SHIGTHAPUL_REFUSED_EXPECTED_EQ, 20, "var, const: no =") \
    X(SHIGTHAPUL_REFUSED_EXPECTED_COLON, 21, "hash: no : behind a key") \
    X(SHIGTHAPUL_REFUSED_NO_PARAMETERS, 22, "lambda: no parameter") \
    X(SHIGTHAPUL_REFUSED_EXPECTED_ARROW, 23, "lambda: no =>") \
    X(SHIGTHAPUL_REFUSED_HASH_NOT_TERMINATED, 24, "hash: not closed") \
    X(SHIGTHAPUL_REFUSED_ARRAY_NOT_TERMINATED, 25, "array: not closed") \
    X(SHIGTHAPUL_REFUSED_NOT_CALLABLE, 26, "thread, async: not in front of a call") \
    X(SHIGTHAPUL_REFUSED_TRY_WITHOUT_CATCH, 27, "try: no catch") \
    X(SHIGTHAPUL_REFUSED_BREAK_WITHOUT_SEMICOLON, 28, "break: no ;") \
    X(SHIGTHAPUL_REFUSED_CONTINUE_WITHOUT_SEMICOLON, 29, "continue: no ;") \
    X(SHIGTHAPUL_REFUSED_WRONG_SIGN, 30, "a call with arguments: no ); while, foreach, finally: no {") \
    X(SHIGTHAPUL_REFUSED_TOO_SHORT, 32, "no room for what is written") \
    X(SHIGTHAPUL_REFUSED_NOT_UNICODE, 33, "the token file: a text or a Char that is not Unicode") \
    X(SHIGTHAPUL_REFUSED_DEEP_TREE, 34, "too deep for a JSON text: more than 128 rows on a path") \
    X(SHIGTHAPUL_REFUSED_NO_TREE, 38, "not a tree: the root, or a row that it reaches; or no field for its payload")
SHIGTHAPUL_TABLE(refusal, SHIGTHAPUL_REFUSALS)

/* The kinds of rows, with what their children are. A list is the child and the rows behind it by next words. */
#define SHIGTHAPUL_KINDS(X) \
    X(SHIGTHAPUL_KIND_NONE, 1, "none") \
    X(SHIGTHAPUL_KIND_IDENTIFIER, 2, "identifier") \
    X(SHIGTHAPUL_KIND_INT, 3, "int") \
    X(SHIGTHAPUL_KIND_FLOAT, 4, "float") \
    X(SHIGTHAPUL_KIND_CHAR, 5, "char") \
    X(SHIGTHAPUL_KIND_STRING, 6, "string") \
    X(SHIGTHAPUL_KIND_BOOL, 7, "bool") /* mark: SHIGTHAPUL_TRUE */ \
    X(SHIGTHAPUL_KIND_ARRAY, 8, "array") /* list of values */ \
    X(SHIGTHAPUL_KIND_HASH, 9, "hash") /* list of pairs */ \
    X(SHIGTHAPUL_KIND_INDEX, 10, "index") /* left, index */ \
    X(SHIGTHAPUL_KIND_CALL, 11, "call") /* function, list of arguments; mark: SHIGTHAPUL_THREAD, SHIGTHAPUL_ASYNC */ \
    X(SHIGTHAPUL_KIND_INFIX, 12, "infix") /* left, right; mark: an infix operator */ \
    X(SHIGTHAPUL_KIND_PREFIX, 13, "prefix") /* expression; mark: a prefix operator */ \
    X(SHIGTHAPUL_KIND_SUFFIX, 14, "suffix") /* expression; mark: a suffix operator */ \
    X(SHIGTHAPUL_KIND_LAMBDA, 15, "lambda") /* list of parameters, body */ \
    X(SHIGTHAPUL_KIND_SHELL, 16, "shell") /* expression; mark: SHIGTHAPUL_RAW */ \
    X(SHIGTHAPUL_KIND_ATTRIBUTE, 17, "attribute") /* identifier, list of names */ \
    X(SHIGTHAPUL_KIND_NAME, 18, "name") /* behind a dot */ \
    X(SHIGTHAPUL_KIND_PAIR, 19, "pair") /* key, value */ \
    X(SHIGTHAPUL_KIND_BREAK, 32, "break") \
    X(SHIGTHAPUL_KIND_CONTINUE, 33, "continue") \
    X(SHIGTHAPUL_KIND_VAR, 34, "var") /* value or none */ \
    X(SHIGTHAPUL_KIND_CONST, 35, "const") /* value */ \
    X(SHIGTHAPUL_KIND_RETURN, 36, "return") /* value or none */ \
    X(SHIGTHAPUL_KIND_THROW, 37, "throw") /* expression */ \
    X(SHIGTHAPUL_KIND_EXPRESSION, 38, "expression") /* expression */ \
    X(SHIGTHAPUL_KIND_TRY, 39, "try") /* block, exception, catch block, final block or none */ \
    X(SHIGTHAPUL_KIND_FUNCTION, 40, "function") /* list of parameters, body */ \
    X(SHIGTHAPUL_KIND_FOR, 41, "for") /* target, iterator, block */ \
    X(SHIGTHAPUL_KIND_WHILE, 42, "while") /* condition, block */ \
    X(SHIGTHAPUL_KIND_ASSERT, 43, "assert") /* condition, action */ \
    X(SHIGTHAPUL_KIND_IF, 44, "if") /* condition, main block, block of else or none */ \
    X(SHIGTHAPUL_KIND_FOREACH, 45, "foreach") /* iterator, index, element, block */ \
    X(SHIGTHAPUL_KIND_BLOCK, 46, "block") /* list of statements */
SHIGTHAPUL_TABLE(kind, SHIGTHAPUL_KINDS)

/* The marks of infix rows: the operators in the order of the original's InfixExpKind. */
#define SHIGTHAPUL_INFIXES(X) \
    X(SHIGTHAPUL_INFIX_PLUS, 0, "+") \
    X(SHIGTHAPUL_INFIX_MINUS, 1, "-") \
    X(SHIGTHAPUL_INFIX_MUL, 2, "*") \
    X(SHIGTHAPUL_INFIX_DIV, 3, "/") \
    X(SHIGTHAPUL_INFIX_MOD, 4, "%") \
    X(SHIGTHAPUL_INFIX_AND, 5, "&") \
    X(SHIGTHAPUL_INFIX_OR, 6, "|") \
    X(SHIGTHAPUL_INFIX_EQUAL, 7, "=") \
    X(SHIGTHAPUL_INFIX_EEQUAL, 8, "==") \
    X(SHIGTHAPUL_INFIX_NOT_EQUAL, 9, "!=") \
    X(SHIGTHAPUL_INFIX_GREATER_THAN_EQUAL, 10, ">=") \
    X(SHIGTHAPUL_INFIX_GREATER_THAN, 11, ">") \
    X(SHIGTHAPUL_INFIX_LESSER_THAN_EQUAL, 12, "<=") \
    X(SHIGTHAPUL_INFIX_LESSER_THAN, 13, "<") \
    X(SHIGTHAPUL_INFIX_LOGICAL_OR, 14, "||") \
    X(SHIGTHAPUL_INFIX_LOGICAL_AND, 15, "&&") \
    X(SHIGTHAPUL_INFIX_PLUS_EQ, 16, "+=") \
    X(SHIGTHAPUL_INFIX_MINUS_EQ, 17, "-=") \
    X(SHIGTHAPUL_INFIX_MUL_EQ, 18, "*=") \
    X(SHIGTHAPUL_INFIX_DIV_EQ, 19, "/=") \
    X(SHIGTHAPUL_INFIX_AND_EQ, 20, "&=") \
    X(SHIGTHAPUL_INFIX_OR_EQ, 21, "|=") \
    X(SHIGTHAPUL_INFIX_MOD_EQ, 22, "%=")
SHIGTHAPUL_TABLE(infix, SHIGTHAPUL_INFIXES)

/* The marks of prefix rows: the order of PrefixExpKind. */
#define SHIGTHAPUL_PREFIXES(X) \
    X(SHIGTHAPUL_PREFIX_PRE_INCREMENT, 0, "++") \
    X(SHIGTHAPUL_PREFIX_PRE_DECREMENT, 1, "--") \
    X(SHIGTHAPUL_PREFIX_NOT, 2, "!") \
    X(SHIGTHAPUL_PREFIX_NEG, 3, "~")
SHIGTHAPUL_TABLE(prefix, SHIGTHAPUL_PREFIXES)

/* The marks of suffix rows: the order of SuffixExpKind. */
#define SHIGTHAPUL_SUFFIXES(X) \
    X(SHIGTHAPUL_SUFFIX_POST_INCREMENT, 0, "++") \
    X(SHIGTHAPUL_SUFFIX_POST_DECREMENT, 1, "--")
SHIGTHAPUL_TABLE(suffix, SHIGTHAPUL_SUFFIXES)

/* The classes of tokens: the original's TokenKind. */
#define SHIGTHAPUL_CLASSES(X) \
    X(SHIGTHAPUL_CLASS_INVALID, 0, "Invalid") \
    X(SHIGTHAPUL_CLASS_EMPTY, 1, "Empty") \
    X(SHIGTHAPUL_CLASS_EOF, 2, "EOF") \
    X(SHIGTHAPUL_CLASS_INTEGER, 3, "Integer") \
    X(SHIGTHAPUL_CLASS_STR, 4, "Str") \
    X(SHIGTHAPUL_CLASS_FLOAT, 5, "Float") \
    X(SHIGTHAPUL_CLASS_CHAR, 6, "Char") \
    X(SHIGTHAPUL_CLASS_IDENTIFIER, 7, "Identifier") \
    X(SHIGTHAPUL_CLASS_OPERATOR, 8, "Operator") \
    X(SHIGTHAPUL_CLASS_KEYWORD, 9, "Keyword") \
    X(SHIGTHAPUL_CLASS_UNKNOWN, 10, "Unknown")
SHIGTHAPUL_TABLE(class, SHIGTHAPUL_CLASSES)

/* The codes of operators: the original's SymbolKind. */
#define SHIGTHAPUL_SYMBOLS(X) \
    X(SHIGTHAPUL_SInvalid, 0, "_SInvalid") \
    X(SHIGTHAPUL_SPlus, 1, "+") \
    X(SHIGTHAPUL_SMinus, 2, "-") \
    X(SHIGTHAPUL_SMul, 3, "*") \
    X(SHIGTHAPUL_SDiv, 4, "/") \
    X(SHIGTHAPUL_SLParen, 5, "(") \
    X(SHIGTHAPUL_SRparen, 6, ")") \
    X(SHIGTHAPUL_SLt, 7, "<") \
    X(SHIGTHAPUL_SGt, 8, ">") \
    X(SHIGTHAPUL_SLte, 9, "<=") \
    X(SHIGTHAPUL_SGte, 10, ">=") \
    X(SHIGTHAPUL_SSemiColon, 11, ";") \
    X(SHIGTHAPUL_SComma, 12, ",") \
    X(SHIGTHAPUL_SMod, 13, "%") \
    X(SHIGTHAPUL_SExcl, 14, "!") \
    X(SHIGTHAPUL_SEq, 15, "=") \
    X(SHIGTHAPUL_SEeq, 16, "==") \
    X(SHIGTHAPUL_SNe, 17, "!=") \
    X(SHIGTHAPUL_SLBrace, 18, "{") \
    X(SHIGTHAPUL_SRBrace, 19, "}") \
    X(SHIGTHAPUL_SAnd, 20, "&") \
    X(SHIGTHAPUL_SOr, 21, "|") \
    X(SHIGTHAPUL_SAndEq, 22, "&=") \
    X(SHIGTHAPUL_SOrEq, 23, "|=") \
    X(SHIGTHAPUL_SNeg, 24, "~") \
    X(SHIGTHAPUL_SLAnd, 25, "&&") \
    X(SHIGTHAPUL_SLOr, 26, "||") \
    X(SHIGTHAPUL_SPlusEq, 27, "+=") \
    X(SHIGTHAPUL_SMinusEq, 28, "-=") \
    X(SHIGTHAPUL_SIncr, 29, "++") \
    X(SHIGTHAPUL_SDecr, 30, "--") \
    X(SHIGTHAPUL_SMulEq, 31, "*=") \
    X(SHIGTHAPUL_SDivEq, 32, "/=") \
    X(SHIGTHAPUL_SModEq, 33, "%=") \
    X(SHIGTHAPUL_SLBox, 34, "[") \
    X(SHIGTHAPUL_SRBox, 35, "]") \
    X(SHIGTHAPUL_SImpl, 36, "=>") \
    X(SHIGTHAPUL_SColon, 37, ":") \
    X(SHIGTHAPUL_SDot, 38, ".") \
    X(SHIGTHAPUL_SResolve, 39, "::") \
    X(SHIGTHAPUL_SDollar, 40, "$")
SHIGTHAPUL_TABLE(symbol, SHIGTHAPUL_SYMBOLS)

/* The codes of keywords: the original's KeywordKind. */
#define SHIGTHAPUL_KEYWORDS(X) \
    X(SHIGTHAPUL_KInvalid, 0, "_KInvalid") \
    X(SHIGTHAPUL_KIf, 1, "if") \
    X(SHIGTHAPUL_KElse, 2, "else") \
    X(SHIGTHAPUL_KWhile, 3, "while") \
    X(SHIGTHAPUL_KFor, 4, "for") \
    X(SHIGTHAPUL_KBreak, 5, "break") \
    X(SHIGTHAPUL_KContinue, 6, "continue") \
    X(SHIGTHAPUL_KConst, 7, "const") \
    X(SHIGTHAPUL_KVar, 8, "var") \
    X(SHIGTHAPUL_KNone, 9, "none") \
    X(SHIGTHAPUL_KFunc, 10, "func") \
    X(SHIGTHAPUL_KReturn, 11, "return") \
    X(SHIGTHAPUL_KTry, 12, "try") \
    X(SHIGTHAPUL_KCatch, 13, "catch") \
    X(SHIGTHAPUL_KFinally, 14, "finally") \
    X(SHIGTHAPUL_KRethrow, 15, "rethrow") \
    X(SHIGTHAPUL_KThrow, 16, "throw") \
    X(SHIGTHAPUL_KAs, 17, "as") \
    X(SHIGTHAPUL_KTrue, 18, "true") \
    X(SHIGTHAPUL_KFalse, 19, "false") \
    X(SHIGTHAPUL_KForEach, 20, "foreach") \
    X(SHIGTHAPUL_KIn, 21, "in") \
    X(SHIGTHAPUL_KUse, 22, "use") \
    X(SHIGTHAPUL_KPure, 23, "pure") \
    X(SHIGTHAPUL_KLambda, 24, "lambda") \
    X(SHIGTHAPUL_KAssert, 25, "assert") \
    X(SHIGTHAPUL_KThread, 26, "thread") \
    X(SHIGTHAPUL_KAsync, 27, "async")
SHIGTHAPUL_TABLE(keyword, SHIGTHAPUL_KEYWORDS)

/* The flags in the marks of rows. */
enum shigthapul_mark {
    SHIGTHAPUL_TRUE = 1,     /* a bool */
    SHIGTHAPUL_THREAD = 1,   /* a call that is started on a thread */
    SHIGTHAPUL_ASYNC = 2,    /* a call that is not waited for */
    SHIGTHAPUL_RAW = 1,      /* a shell expression */
    SHIGTHAPUL_GROUPED = 256 /* any row that stands in brackets; the rest of the mark is below it */
};

/* The word of a token: its class in the upper eight bits, its code in the lower eight. */
static inline uint16_t shigthapul_word(enum shigthapul_class token_class, unsigned code) {
    return (uint16_t)((unsigned)token_class << 8 | code);
}

/* Whether a token has a payload that its word doesn't say: a number, a text, a character or a name. */
static inline bool shigthapul_has_payload(uint16_t word) {
    return SHIGTHAPUL_CLASS_INTEGER <= word >> 8 && word >> 8 <= SHIGTHAPUL_CLASS_IDENTIFIER;
}

#endif
