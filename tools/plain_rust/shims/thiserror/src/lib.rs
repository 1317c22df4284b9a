//! The derive `Error` of the crate `thiserror`, of structs and enums without type parameters: it writes `Display` by the
//! texts of `#[error("..")]`, in which fields stand by their names or numbers, and an empty `Error`.

use proc_macro::{Delimiter, Group, TokenStream, TokenTree};
use std::iter::Peekable;

type Tokens = Peekable<proc_macro::token_stream::IntoIter>;

/// What is read before an item: the text of its `error`, if it has one. The words `pub` and `(crate)` are passed over.
fn head(tokens: &mut Tokens) -> Option<String> {
    let mut text = None;
    while let Some(token) = tokens.peek() {
        match token {
            TokenTree::Punct(it) if it.as_char() == '#' => {}
            TokenTree::Group(it) if it.delimiter() == Delimiter::Bracket => {
                text = error_text(it).or(text);
            }
            TokenTree::Group(it) if it.delimiter() == Delimiter::Parenthesis => {}
            TokenTree::Ident(it) if it.to_string() == "pub" => {}
            _ => break,
        }
        tokens.next();
    }
    text
}

/// The text of an attribute `error("..")`.
fn error_text(attribute: &Group) -> Option<String> {
    let mut tokens = attribute.stream().into_iter();
    match (tokens.next()?, tokens.next()?) {
        (TokenTree::Ident(name), TokenTree::Group(text)) if name.to_string() == "error" => {
            Some(text.stream().to_string())
        }
        _ => None,
    }
}

/// The pattern of the fields of a variant, behind its name, and the text with numbered fields named.
fn fields(group: Option<&Group>, text: &str) -> (String, String) {
    let Some(group) = group else {
        return (String::new(), text.to_string());
    };
    if group.delimiter() == Delimiter::Brace {
        let names = field_names(group);
        return (format!("{{ {} }}", names.join(", ")), text.to_string());
    }
    let count = comma_parts(group);
    let names: Vec<String> = (0..count).map(|it| format!("part_{it}")).collect();
    let text = (0..count).fold(text.to_string(), |text, it| {
        text.replace(&format!("{{{it}"), &format!("{{part_{it}"))
    });
    (format!("({})", names.join(", ")), text)
}

fn field_names(group: &Group) -> Vec<String> {
    let mut names = Vec::new();
    let mut tokens = group.stream().into_iter().peekable();
    while tokens.peek().is_some() {
        head(&mut tokens);
        if let Some(TokenTree::Ident(name)) = tokens.next() {
            names.push(name.to_string());
        }
        skip_part(&mut tokens);
    }
    names
}

fn comma_parts(group: &Group) -> usize {
    let mut tokens = group.stream().into_iter().peekable();
    let mut count = 0;
    while tokens.peek().is_some() {
        skip_part(&mut tokens);
        count += 1;
    }
    count
}

/// Reads up to the comma at the end of a field, or of a variant. A comma inside of `<` and `>` ends none.
fn skip_part(tokens: &mut Tokens) {
    let mut depth = 0;
    for token in tokens {
        if let TokenTree::Punct(it) = token {
            match it.as_char() {
                '<' => depth += 1,
                '>' => depth -= 1,
                ',' if depth == 0 => return,
                _ => {}
            }
        }
    }
}

/// An arm of the match, of a variant or of the struct itself.
fn arm(path: &str, text: Option<String>, group: Option<&Group>) -> String {
    let text = text.unwrap_or_else(|| "\"\"".to_string());
    let (pattern, text) = fields(group, &text);
    format!("#[allow(unused_variables)] {path} {pattern} => write!(f, {text}),")
}

fn arms_of_enum(body: &Group) -> String {
    let mut arms = String::new();
    let mut tokens = body.stream().into_iter().peekable();
    while tokens.peek().is_some() {
        let text = head(&mut tokens);
        let Some(TokenTree::Ident(name)) = tokens.next() else {
            break;
        };
        let group = match tokens.peek() {
            Some(TokenTree::Group(it)) => Some(it.clone()),
            _ => None,
        };
        arms.push_str(&arm(&format!("Self::{name}"), text, group.as_ref()));
        skip_part(&mut tokens);
    }
    arms
}

#[proc_macro_derive(Error, attributes(error))]
pub fn derive_error(item: TokenStream) -> TokenStream {
    let mut tokens = item.into_iter().peekable();
    let text = head(&mut tokens);
    let kind = tokens.next().map(|it| it.to_string());
    let name = tokens.next().map(|it| it.to_string()).unwrap_or_default();
    let body = tokens.find_map(|it| match it {
        TokenTree::Group(it) => Some(it),
        _ => None,
    });
    let arms = match (kind.as_deref(), &body) {
        (Some("enum"), Some(body)) => arms_of_enum(body),
        _ => arm("Self", text, body.as_ref()),
    };
    format!(
        "impl ::std::fmt::Display for {name} {{
            fn fmt(&self, f: &mut ::std::fmt::Formatter<'_>) -> ::std::fmt::Result {{
                match self {{ {arms} }}
            }}
        }}
        impl ::std::error::Error for {name} {{}}"
    )
    .parse()
    .expect("the impls are Rust")
}
