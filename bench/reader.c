/* A plain reader of scripts in C, the measure of the bench: recursive descent, its functions named after the original's. */
#include "reader.h"
#include "answer.h"
#include "state.h"

#include <string.h>

/* ---- expressions */

static uint32_t parse_expression(Reader *r, uint32_t pre);

static uint32_t parse_leaf(Reader *r, uint32_t kind, uint32_t mark) {
    return build(r, kind, mark, r->at, 0, 0);
}

static uint32_t parse_dot_expression(Reader *r) {
    uint32_t place = r->at;
    uint32_t parent = parse_leaf(r, IDENTIFIER, 0);
    List names = {0, 0};
    if (parent == FAILED || next(r) != T_DOT)
        return parent;
    while (take(r, T_DOT)) {
        iterate(r);
        if (current(r) != T_IDENTIFIER)
            return refuse(r, INVALID_IDENTIFIER);
        uint32_t name = parse_leaf(r, NAME, 0);
        if (name == FAILED)
            return FAILED;
        push(r, &names, name);
    }
    return build(r, ATTRIBUTE, 0, place, parent, names.first);
}

/* The reference of a list's first value, 0 where `)` comes at once. */
static uint32_t parse_list_expr(Reader *r) {
    List list = {0, 0};
    if (next(r) == T_RPAREN)
        return 0;
    do {
        iterate(r);
        uint32_t value = parse_expression(r, 0);
        if (value == FAILED)
            return FAILED;
        push(r, &list, value);
    } while (take(r, T_COMMA));
    return list.first;
}

static uint32_t parse_pair(Reader *r) {
    uint32_t key = parse_expression(r, 0);
    if (key == FAILED)
        return FAILED;
    if (!take(r, T_COLON))
        return refuse(r, EXPECTED_COLON);
    uint32_t colon = r->at;
    iterate(r);
    uint32_t value = parse_expression(r, 0);
    if (value == FAILED)
        return FAILED;
    return build(r, PAIR, 0, colon, key, value);
}

static uint32_t parse_hash_literal(Reader *r) {
    uint32_t place = r->at;
    List pairs = {0, 0};
    if (take(r, T_RBRACE))
        return build(r, HASH, 0, place, 0, 0);
    do {
        iterate(r);
        uint32_t pair = parse_pair(r);
        if (pair == FAILED)
            return FAILED;
        push(r, &pairs, pair);
    } while (take(r, T_COMMA));
    if (!take(r, T_RBRACE))
        return refuse(r, HASH_NOT_TERMINATED);
    return build(r, HASH, 0, place, pairs.first, 0);
}

static uint32_t parse_array_expression(Reader *r) {
    uint32_t place = r->at;
    if (take(r, T_RBOX))
        return build(r, ARRAY, 0, place, 0, 0);
    uint32_t values = parse_list_expr(r);
    if (values == FAILED)
        return FAILED;
    if (!take(r, T_RBOX))
        return refuse(r, ARRAY_NOT_TERMINATED);
    return build(r, ARRAY, 0, place, values, 0);
}

static uint32_t parse_lambda_exp(Reader *r) {
    uint32_t place = r->at;
    if (next(r) == T_SEMICOLON)
        return refuse(r, INVALID_SYNTAX);
    if (next(r) == T_IMPL)
        return refuse(r, NO_PARAMETERS);
    uint32_t parameters = parse_list_expr(r);
    if (parameters == FAILED)
        return FAILED;
    if (!take(r, T_IMPL))
        return refuse(r, EXPECTED_ARROW);
    iterate(r);
    uint32_t body = parse_expression(r, 0);
    if (body == FAILED)
        return FAILED;
    return build(r, LAMBDA, 0, place, parameters, body);
}

/* parse_thread_exp and parse_async_expr, by the flag that they set. */
static uint32_t parse_marked_call(Reader *r, uint32_t flag) {
    iterate(r);
    uint32_t call = parse_expression(r, 0);
    if (call == FAILED)
        return FAILED;
    if (row_of(r, call)[KIND] != CALL)
        return refuse(r, NOT_CALLABLE);
    row_of(r, call)[MARK] |= flag;
    return call;
}

/* A row of one child: the expression that begins at the current token. */
static uint32_t parse_around(Reader *r, uint32_t kind, uint32_t mark, uint32_t place) {
    uint32_t inner = parse_expression(r, 0);
    if (inner == FAILED)
        return FAILED;
    return build(r, kind, mark, place, inner, 0);
}

static uint32_t parse_shell_expression(Reader *r) {
    uint32_t place = r->at;
    bool raw = take(r, T_DOT);
    iterate(r);
    return parse_around(r, SHELL, raw, place);
}

static uint32_t parse_prefix_expression(Reader *r, uint32_t mark) {
    uint32_t place = r->at;
    iterate(r);
    return parse_around(r, PREFIX, mark, place);
}

static uint32_t parse_sub_expression(Reader *r) {
    iterate(r);
    if (next(r) == T_RPAREN)
        return refuse(r, INVALID_SYNTAX);
    uint32_t inner = parse_expression(r, 0);
    if (inner == FAILED)
        return FAILED;
    if (!take(r, T_RPAREN))
        return refuse(r, INVALID_SYNTAX);
    row_of(r, inner)[MARK] |= GROUPED;
    return inner;
}

/* No expression begins with this token. */
static uint32_t refuse_token(Reader *r, uint16_t word) {
    switch (word >> 8) {
    case CLASS_OPERATOR: return refuse(r, INVALID_SYMBOL);
    case CLASS_KEYWORD: return refuse(r, NOT_IMPLEMENTED);
    default: return refuse(r, INVALID_TOKEN);
    }
}

/* The head of parse_expression: what the current token begins. */
static uint32_t parse_prefix_part(Reader *r) {
    uint16_t word = current(r);
    switch (word) {
    case T_IDENTIFIER: return parse_dot_expression(r);
    case T_INTEGER: return parse_leaf(r, INT, 0);
    case T_FLOAT: return parse_leaf(r, FLOAT, 0);
    case T_CHAR: return parse_leaf(r, CHAR, 0);
    case T_STR: return parse_leaf(r, STRING, 0);
    case T_TRUE: return parse_leaf(r, BOOL, 1);
    case T_FALSE: return parse_leaf(r, BOOL, 0);
    case T_NONE: return parse_leaf(r, NONE, 0);
    case T_LAMBDA: return parse_lambda_exp(r);
    case T_THREAD: return parse_marked_call(r, THREAD);
    case T_ASYNC: return parse_marked_call(r, ASYNC);
    case T_LBOX: return parse_array_expression(r);
    case T_LBRACE: return parse_hash_literal(r);
    case T_INCR: return parse_prefix_expression(r, 0);
    case T_DECR: return parse_prefix_expression(r, 1);
    case T_EXCL: return parse_prefix_expression(r, 2);
    case T_NEG: return parse_prefix_expression(r, 3);
    case T_LPAREN: return parse_sub_expression(r);
    case T_DOLLAR: return parse_shell_expression(r);
    default: return refuse_token(r, word);
    }
}

static uint32_t parse_infix_expression(Reader *r, uint32_t left, const Sign *sign) {
    uint32_t place = r->at;
    iterate(r);
    uint32_t right = parse_expression(r, sign->order);
    if (right == FAILED)
        return FAILED;
    return build(r, INFIX, sign->mark, place, left, right);
}

/* In the old mode any token closes a call that has arguments. */
static uint32_t parse_call_expression(Reader *r, uint32_t function) {
    uint32_t place = r->at;
    uint32_t arguments = parse_list_expr(r);
    if (arguments == FAILED)
        return FAILED;
    if (!fits(r, T_RPAREN))
        return refuse(r, WRONG_SIGN);
    iterate(r);
    return build(r, CALL, 0, place, function, arguments);
}

static uint32_t parse_index_expression(Reader *r, uint32_t left) {
    uint32_t place = r->at;
    iterate(r);
    uint32_t index = parse_expression(r, 0);
    if (index == FAILED)
        return FAILED;
    if (!take(r, T_RBOX))
        return refuse(r, INVALID_SYNTAX);
    return build(r, INDEX, 0, place, left, index);
}

/* The loop of parse_expression, behind its first part. */
static uint32_t parse_rest(Reader *r, uint32_t left, uint32_t pre) {
    while (left != FAILED) {
        const Sign *sign = sign_of(next(r));
        if (sign->order <= pre)
            break;
        iterate(r);
        switch (sign->role) {
        case JOINS: left = parse_infix_expression(r, left, sign); break;
        case FOLLOWS: left = build(r, SUFFIX, sign->mark, r->at, left, 0); break;
        case CALLS: left = parse_call_expression(r, left); break;
        case INDEXES: left = parse_index_expression(r, left); break;
        }
    }
    return left;
}

static uint32_t parse_expression(Reader *r, uint32_t pre) {
    if (r->open == MOST_OPEN)
        return refuse(r, TOO_DEEP);
    r->open++;
    uint32_t left = parse_prefix_part(r);
    if (left != FAILED && !is_terminated(r))
        left = parse_rest(r, left, pre);
    r->open--;
    return left;
}

/* ---- statements */

static uint32_t parse_statement(Reader *r);

/* Reads a statement into a list; an Empty one leaves nothing. */
static bool parse_kept(Reader *r, List *list) {
    uint32_t statement = parse_statement(r);
    if (statement == FAILED)
        return false;
    if (statement != 0)
        push(r, list, statement);
    iterate(r);
    return true;
}

/* Statements until the current token is `close`. */
static bool parse_statements(Reader *r, List *list, uint16_t close) {
    while (current(r) != close) {
        if (current(r) == T_SEMICOLON)
            iterate(r);
        else if (!parse_kept(r, list))
            return false;
    }
    return true;
}

static uint32_t parse_block_statement(Reader *r) {
    List list = {0, 0};
    iterate(r);
    uint32_t place = r->at;
    if (take(r, T_RBRACE))
        return build(r, BLOCK, 0, place, 0, 0);
    iterate(r);
    if (!parse_kept(r, &list) || !parse_statements(r, &list, T_RBRACE))
        return FAILED;
    return build(r, BLOCK, 0, place, list.first, 0);
}

/* A block whose opener must be a brace. */
static uint32_t parse_braced_block(Reader *r, uint32_t number) {
    if (next(r) != T_LBRACE)
        return refuse(r, number);
    return parse_block_statement(r);
}

/* A block whose opener may be any token in the old mode. */
static uint32_t parse_opened_block(Reader *r) {
    if (!fits(r, T_LBRACE))
        return refuse(r, WRONG_SIGN);
    return parse_block_statement(r);
}

/* The expression behind a token that must come next. */
static uint32_t parse_behind(Reader *r, uint16_t word, uint32_t number) {
    if (!take(r, word))
        return refuse(r, number);
    iterate(r);
    return parse_expression(r, 0);
}

/* break and continue. */
static uint32_t parse_lone_word(Reader *r, uint32_t kind, uint32_t number) {
    uint32_t place = r->at;
    if (!is_terminated(r))
        return refuse(r, number);
    return build(r, kind, 0, place, 0, 0);
}

static uint32_t parse_var_or_const(Reader *r, uint32_t kind) {
    iterate(r);
    uint32_t name = r->at;
    if (current(r) != T_IDENTIFIER)
        return refuse(r, INVALID_IDENTIFIER);
    if (is_terminated(r))
        return kind == CONST ? refuse(r, CONST_WITHOUT_VALUE) : build(r, VAR, 0, name, 0, 0);
    iterate(r);
    if (current(r) != T_EQ)
        return refuse(r, EXPECTED_EQ);
    iterate(r);
    return parse_around(r, kind, 0, name);
}

static uint32_t parse_return_statement(Reader *r) {
    uint32_t place = r->at;
    if (is_terminated(r))
        return build(r, RETURN, 0, place, 0, 0);
    iterate(r);
    return parse_around(r, RETURN, 0, place);
}

static uint32_t parse_throw_statement(Reader *r) {
    uint32_t place = r->at;
    iterate(r);
    return parse_around(r, THROW, 0, place);
}

static uint32_t parse_assert_statement(Reader *r) {
    uint32_t place = r->at;
    iterate(r);
    uint32_t target = parse_expression(r, 0);
    if (target == FAILED)
        return FAILED;
    if (is_terminated(r))
        return refuse(r, ASSERT_WITHOUT_ACTION);
    uint32_t fail = parse_behind(r, T_COMMA, ASSERT_WITHOUT_COMMA);
    if (fail == FAILED)
        return FAILED;
    return build(r, ASSERT, 0, place, target, fail);
}

static uint32_t parse_function_statement(Reader *r) {
    iterate(r);
    uint32_t name = r->at;
    if (current(r) != T_IDENTIFIER)
        return refuse(r, FUNC_WITHOUT_NAME);
    if (!take(r, T_LPAREN))
        return refuse(r, INVALID_SYNTAX);
    uint32_t parameters = parse_list_expr(r);
    if (parameters == FAILED)
        return FAILED;
    if (!take(r, T_RPAREN))
        return refuse(r, INVALID_SYNTAX);
    uint32_t body = parse_braced_block(r, INVALID_SYNTAX);
    if (body == FAILED)
        return FAILED;
    return build(r, FUNCTION, 0, name, parameters, body);
}

static uint32_t parse_if_statement(Reader *r) {
    uint32_t place = r->at;
    uint32_t alternate = 0;
    iterate(r);
    if (current(r) != T_LPAREN)
        return refuse(r, INVALID_SYNTAX);
    iterate(r);
    uint32_t condition = parse_expression(r, 0);
    if (condition == FAILED)
        return FAILED;
    if (!take(r, T_RPAREN))
        return refuse(r, INVALID_TOKEN);
    uint32_t main_block = parse_braced_block(r, IF_WITHOUT_BODY);
    if (main_block == FAILED)
        return FAILED;
    if (take(r, T_ELSE)) {
        alternate = parse_braced_block(r, INVALID_SYNTAX);
        if (alternate == FAILED)
            return FAILED;
    }
    return build4(r, IF, 0, place, condition, main_block, alternate, 0);
}

static uint32_t parse_while_statement(Reader *r) {
    uint32_t place = r->at;
    uint32_t target = parse_behind(r, T_LPAREN, INVALID_SYNTAX);
    if (target == FAILED)
        return FAILED;
    if (!take(r, T_RPAREN))
        return refuse(r, INVALID_SYNTAX);
    uint32_t block = parse_opened_block(r);
    if (block == FAILED)
        return FAILED;
    return build(r, WHILE, 0, place, target, block);
}

static uint32_t parse_for_loop_statement(Reader *r) {
    uint32_t place = r->at;
    iterate(r);
    uint32_t target = parse_expression(r, 0);
    if (target == FAILED)
        return FAILED;
    uint32_t iterator = parse_behind(r, T_IN, INVALID_SYNTAX);
    if (iterator == FAILED)
        return FAILED;
    if (!take(r, T_IMPL))
        return refuse(r, INVALID_SYNTAX);
    uint32_t block = parse_braced_block(r, INVALID_SYNTAX);
    if (block == FAILED)
        return FAILED;
    return build4(r, FOR, 0, place, target, iterator, block, 0);
}

static uint32_t parse_for_each_statement(Reader *r) {
    uint32_t place = r->at;
    iterate(r);
    uint32_t iterator = parse_expression(r, 0);
    if (iterator == FAILED)
        return FAILED;
    uint32_t index = parse_behind(r, T_COMMA, INVALID_SYNTAX);
    if (index == FAILED)
        return FAILED;
    uint32_t element = parse_behind(r, T_COMMA, INVALID_SYNTAX);
    if (element == FAILED)
        return FAILED;
    if (!take(r, T_IMPL))
        return refuse(r, INVALID_SYNTAX);
    uint32_t block = parse_opened_block(r);
    if (block == FAILED)
        return FAILED;
    return build4(r, FOREACH, 0, place, iterator, index, element, block);
}

static uint32_t parse_try_statement(Reader *r) {
    uint32_t place = r->at;
    uint32_t final_block = 0;
    uint32_t block = parse_braced_block(r, INVALID_SYNTAX);
    if (block == FAILED)
        return FAILED;
    uint32_t exception = parse_behind(r, T_CATCH, TRY_WITHOUT_CATCH);
    if (exception == FAILED)
        return FAILED;
    uint32_t catch_block = parse_braced_block(r, INVALID_SYNTAX);
    if (catch_block == FAILED)
        return FAILED;
    if (take(r, T_FINALLY)) {
        final_block = parse_opened_block(r);
        if (final_block == FAILED)
            return FAILED;
    }
    return build4(r, TRY, 0, place, block, exception, catch_block, final_block);
}

/* The statements that refuse a semicolon right behind their keyword. */
static uint32_t parse_headed_statement(Reader *r, uint16_t keyword) {
    if (is_terminated(r))
        return refuse(r, INVALID_SYNTAX);
    switch (keyword) {
    case T_VAR: return parse_var_or_const(r, VAR);
    case T_CONST: return parse_var_or_const(r, CONST);
    case T_IF: return parse_if_statement(r);
    case T_ASSERT: return parse_assert_statement(r);
    case T_WHILE: return parse_while_statement(r);
    case T_FUNC: return parse_function_statement(r);
    case T_FOR: return parse_for_loop_statement(r);
    case T_THROW: return parse_throw_statement(r);
    case T_TRY: return parse_try_statement(r);
    default: return parse_for_each_statement(r);
    }
}

/* What the current token begins. */
static uint32_t parse_any_statement(Reader *r) {
    switch (current(r)) {
    case T_EMPTY: return 0;
    case T_BREAK: return parse_lone_word(r, BREAK, BREAK_WITHOUT_SEMICOLON);
    case T_CONTINUE: return parse_lone_word(r, CONTINUE, CONTINUE_WITHOUT_SEMICOLON);
    case T_RETURN: return parse_return_statement(r);
    case T_VAR: case T_CONST: case T_IF: case T_ASSERT: case T_WHILE:
    case T_FUNC: case T_FOR: case T_THROW: case T_TRY: case T_FOREACH:
        return parse_headed_statement(r, current(r));
    default: return parse_around(r, EXPRESSION, 0, r->at);
    }
}

/* One statement; an Empty token is the reference 0. */
static uint32_t parse_statement(Reader *r) {
    if (r->open == MOST_OPEN)
        return refuse(r, TOO_DEEP);
    r->open++;
    uint32_t statement = parse_any_statement(r);
    r->open--;
    return statement;
}

static uint32_t parse(Reader *r) {
    List list = {0, 0};
    if (!parse_statements(r, &list, T_EOF))
        return FAILED;
    return build(r, BLOCK, 0, 0, list.first, 0);
}

/* ---- the entries */

static bool is_valid(uint16_t word) {
    static const uint8_t CODES[CLASSES] = {
        1, 1, 1, 1, 1, 1, 1, 1, OPERATORS, KEYWORDS, 1,
    };
    return word >> 8 < CLASSES && (word & 0xFF) < CODES[word >> 8];
}

/* The place of an array's first fault, or its length. */
static size_t first_fault(const uint16_t *tokens, size_t count) {
    if (count == 0 || count > MOST_TOKENS)
        return 0;
    size_t place;
    for (place = 0; place < count; place++)
        if (!is_valid(tokens[place]) || (tokens[place] == T_EOF) != (place == count - 1))
            break;
    return place;
}

/* Clears the pool, checks the array and the start, and reads. */
static void enter(uint32_t (*entry)(Reader *), const uint16_t *tokens, size_t count, uint32_t *pool,
                  size_t words, size_t start, bool strict, uint64_t answer[4]) {
    size_t rows = words / ROW < MOST_ROWS ? words / ROW : MOST_ROWS;
    size_t fault = first_fault(tokens, count);
    Reader r = {tokens, (uint32_t)count - 1, (uint32_t)start, 0, pool, (uint32_t)rows, 0, 0, strict};
    memset(pool, 0, words * sizeof *pool);
    if (count == 0 || fault < count) {
        answer_with(answer, BAD_ARRAY, fault);
        return;
    }
    if (start >= count) {
        answer_with(answer, BAD_START, 0);
        return;
    }
    uint32_t root = entry(&r);
    if (root == FAILED) {
        memset(pool, 0, words * sizeof *pool);
        answer_with(answer, r.number, r.at);
        return;
    }
    answer[0] = 0;
    answer[1] = root;
    answer[2] = r.used;
    answer[3] = r.at;
}

static uint32_t parse_whole_expression(Reader *r) {
    return parse_expression(r, 0);
}

void plain_one_expression(const uint16_t *tokens, size_t count, uint32_t *pool, size_t words,
                          size_t start, bool strict, uint64_t answer[4]) {
    enter(parse_whole_expression, tokens, count, pool, words, start, strict, answer);
}

void plain_one_statement(const uint16_t *tokens, size_t count, uint32_t *pool, size_t words,
                         size_t start, bool strict, uint64_t answer[4]) {
    enter(parse_statement, tokens, count, pool, words, start, strict, answer);
}

void plain_whole_script(const uint16_t *tokens, size_t count, uint32_t *pool, size_t words,
                        bool strict, uint64_t answer[4]) {
    enter(parse, tokens, count, pool, words, 0, strict, answer);
}
