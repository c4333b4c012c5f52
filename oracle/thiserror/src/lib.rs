//! `derive(Error)` for what flussab-cnf asks of it: an enum whose variants each hold one unnamed
//! field and carry `#[error(transparent)]` or `#[error("text", .0)]`.
//!
//! A transparent variant is shown, and gives its source, as its field does. A variant with a text is
//! shown by that text, `.0` being the field, and names the field as its source if the field is
//! marked `#[source]`. Anything else is refused while compiling.

use proc_macro::{Delimiter, Group, TokenStream, TokenTree};

/// Writes `Display` and `std::error::Error` for the enum.
#[proc_macro_derive(Error, attributes(error, source))]
pub fn derive_error(item: TokenStream) -> TokenStream {
    let mut tokens = item.into_iter();
    let mut name = None;
    let mut body = None;
    while let Some(token) = tokens.next() {
        match token {
            TokenTree::Ident(word) if word.to_string() == "enum" => {
                name = tokens.next().map(|token| token.to_string());
            }
            TokenTree::Group(group) if group.delimiter() == Delimiter::Brace => body = Some(group),
            _ => {}
        }
    }
    let (Some(name), Some(body)) = (name, body) else {
        panic!("only enums are derived here");
    };

    let mut shown = String::new();
    let mut sources = String::new();
    let mut error = None;
    let mut tokens = body.stream().into_iter().peekable();
    while let Some(token) = tokens.next() {
        match token {
            TokenTree::Punct(punct) if punct.as_char() == '#' => {
                if let Some(TokenTree::Group(attribute)) = tokens.next() {
                    error = argument(&attribute, "error").or(error);
                }
            }
            TokenTree::Ident(variant) => {
                let Some(TokenTree::Group(field)) = tokens.next() else {
                    panic!("{variant} has no field");
                };
                let error = error.take().expect("a variant without #[error(..)]");
                if error.to_string() == "transparent" {
                    shown +=
                        &format!("Self::{variant}(field) => ::std::fmt::Display::fmt(field, f),");
                    sources +=
                        &format!("Self::{variant}(field) => ::std::error::Error::source(field),");
                } else {
                    let text = with_field(error);
                    shown += &format!("Self::{variant}(field) => ::std::write!(f, {text}),");
                    sources += &if has_source(&field) {
                        format!("Self::{variant}(field) => ::std::option::Option::Some(field),")
                    } else {
                        format!("Self::{variant}(_) => ::std::option::Option::None,")
                    };
                }
            }
            _ => {}
        }
    }

    format!(
        "impl ::std::fmt::Display for {name} {{
            fn fmt(&self, f: &mut ::std::fmt::Formatter<'_>) -> ::std::fmt::Result {{
                match self {{ {shown} }}
            }}
        }}
        impl ::std::error::Error for {name} {{
            fn source(&self) -> ::std::option::Option<&(dyn ::std::error::Error + 'static)> {{
                match self {{ {sources} }}
            }}
        }}"
    )
    .parse()
    .expect("the text above is Rust")
}

/// What stands in the parentheses of the attribute `[name(..)]`, if that is its name.
fn argument(attribute: &Group, name: &str) -> Option<TokenStream> {
    let mut tokens = attribute.stream().into_iter();
    match (tokens.next(), tokens.next()) {
        (Some(TokenTree::Ident(word)), Some(TokenTree::Group(inside)))
            if word.to_string() == name =>
        {
            Some(inside.stream())
        }
        _ => None,
    }
}

/// The arguments of a format call, with `field` for `.0`.
fn with_field(arguments: TokenStream) -> String {
    let mut text = String::new();
    let mut tokens = arguments.into_iter().peekable();
    while let Some(token) = tokens.next() {
        let field = matches!(&token, TokenTree::Punct(punct) if punct.as_char() == '.')
            && tokens.next_if(|next| next.to_string() == "0").is_some();
        text += &if field {
            "field".to_string()
        } else {
            token.to_string()
        };
        text.push(' ');
    }
    text
}

/// Whether the one field is marked `#[source]`.
fn has_source(field: &Group) -> bool {
    field.stream().into_iter().any(
        |token| matches!(&token, TokenTree::Group(attribute) if attribute.stream().to_string() == "source"),
    )
}
