// The section that the build puts after the unchanged mfl.rs: `lex` and `Token` are private there,
// so only text in the same module can reach them.

/// The tokens of a text, each a kind and its text: `W` a word, `N` a number, `.` for `..`, `;` for
/// any separator, else the character itself. Only words and numbers have a text.
pub fn judge_tokens(src: &str) -> Result<Vec<(u8, String)>, String> {
    let kinds = lex(src)?.into_iter().map(|token| match token {
        Token::Word(text) => (b'W', text),
        Token::Number(text) => (b'N', text),
        Token::LParen => (b'(', String::new()),
        Token::RParen => (b')', String::new()),
        Token::LBracket => (b'[', String::new()),
        Token::RBracket => (b']', String::new()),
        Token::Comma => (b',', String::new()),
        Token::DotDot => (b'.', String::new()),
        Token::Star => (b'*', String::new()),
        Token::Plus => (b'+', String::new()),
        Token::Question => (b'?', String::new()),
        Token::At => (b'@', String::new()),
        Token::Separator => (b';', String::new()),
    });
    Ok(kinds.collect())
}
