//! The kinds of rows, and the operators that the marks of three of them stand for.

table! {
    /// The kind of a row. Each says what its children are; a list is the child and those behind it.
    ///
    /// ```
    /// use shigthapul::Kind;
    ///
    /// assert_eq!(Kind::Infix.number(), 12);
    /// assert_eq!(Kind::from_number(46), Some(Kind::Block));
    /// assert_eq!(Kind::ForEach.to_string(), "foreach");
    /// ```
    Kind: u32 {
        None = 1, "none";
        Identifier = 2, "identifier";
        Int = 3, "int";
        Float = 4, "float";
        Char = 5, "char";
        String = 6, "string";
        /// Mark 1 where it is true.
        Bool = 7, "bool";
        /// The list of values.
        Array = 8, "array";
        /// The list of pairs.
        Hash = 9, "hash";
        /// What is indexed; the index.
        Index = 10, "index";
        /// The function; the list of arguments. Mark 1 where it is started on a thread, plus 2
        /// where it is async.
        Call = 11, "call";
        /// The left side; the right side. The mark is an [`Infix`].
        Infix = 12, "infix";
        /// The expression. The mark is a [`Prefix`].
        Prefix = 13, "prefix";
        /// The expression. The mark is a [`Suffix`].
        Suffix = 14, "suffix";
        /// The list of parameters, at least one; the body.
        Lambda = 15, "lambda";
        /// The expression. Mark 1 where it is raw.
        Shell = 16, "shell";
        /// The identifier in front; the list of names, at least one.
        Attribute = 17, "attribute";
        /// A name behind a dot.
        Name = 18, "name";
        /// The key; the value.
        Pair = 19, "pair";
        Break = 32, "break";
        Continue = 33, "continue";
        /// The value, if there is one.
        Var = 34, "var";
        /// The value.
        Const = 35, "const";
        /// The value, if there is one.
        Return = 36, "return";
        /// The expression.
        Throw = 37, "throw";
        /// The expression that is the statement.
        Expression = 38, "expression";
        /// The block; the exception; the catch block; the final block, if there is one.
        Try = 39, "try";
        /// The list of parameters; the body.
        Function = 40, "function";
        /// The target; the iterator; the block.
        For = 41, "for";
        /// The condition; the block.
        While = 42, "while";
        /// The condition; the action.
        Assert = 43, "assert";
        /// The condition; the main block; the block of else, if there is one.
        If = 44, "if";
        /// The iterator; the index; the element; the block.
        ForEach = 45, "foreach";
        /// The list of statements.
        Block = 46, "block";
    }
}

table! {
    /// An infix operator, by the names and the order of the original's `InfixExpKind`.
    ///
    /// ```
    /// assert_eq!(shigthapul::Infix::from_number(7), Some(shigthapul::Infix::Equal));
    /// assert_eq!(shigthapul::Infix::Equal.text(), "=");
    /// ```
    Infix: u32 {
        Plus = 0, "+";
        Minus = 1, "-";
        Mul = 2, "*";
        Div = 3, "/";
        Mod = 4, "%";
        And = 5, "&";
        Or = 6, "|";
        Equal = 7, "=";
        EEqual = 8, "==";
        NotEqual = 9, "!=";
        GreaterThanEqual = 10, ">=";
        GreaterThan = 11, ">";
        LesserThanEqual = 12, "<=";
        LesserThan = 13, "<";
        LogicalOr = 14, "||";
        LogicalAnd = 15, "&&";
        PlusEq = 16, "+=";
        MinusEq = 17, "-=";
        MulEq = 18, "*=";
        DivEq = 19, "/=";
        AndEq = 20, "&=";
        OrEq = 21, "|=";
        ModEq = 22, "%=";
    }
}

table! {
    /// A prefix operator, by the names and the order of the original's `PrefixExpKind`.
    ///
    /// ```
    /// assert_eq!(shigthapul::Prefix::Not.text(), "!");
    /// ```
    Prefix: u32 {
        PreIncrement = 0, "++";
        PreDecrement = 1, "--";
        Not = 2, "!";
        Neg = 3, "~";
    }
}

table! {
    /// A suffix operator, by the names and the order of the original's `SuffixExpKind`.
    ///
    /// ```
    /// assert_eq!(shigthapul::Suffix::PostDecrement.text(), "--");
    /// ```
    Suffix: u32 {
        PostIncrement = 0, "++";
        PostDecrement = 1, "--";
    }
}
