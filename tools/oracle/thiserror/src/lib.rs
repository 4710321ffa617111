//! The part of `thiserror` that the Rust uses: `#[derive(Error)]` on an enum
//! whose variants carry `#[error("...")]`.

use proc_macro::{Delimiter, Group, TokenStream, TokenTree};

#[proc_macro_derive(Error, attributes(error))]
pub fn derive_error(input: TokenStream) -> TokenStream {
    let (name, body) = enum_of(input);
    let arms: String = variants(body).iter().map(Variant::arm).collect();
    format!(
        "impl ::std::fmt::Display for {name} {{
            #[allow(unused_variables)]
            fn fmt(&self, out: &mut ::std::fmt::Formatter<'_>) -> ::std::fmt::Result {{
                match self {{ {arms} }}
            }}
        }}
        impl ::std::error::Error for {name} {{}}"
    )
    .parse()
    .expect("the implementation is Rust")
}

fn enum_of(input: TokenStream) -> (String, TokenStream) {
    let mut tokens = input.into_iter();
    tokens.by_ref().find(|token| token.to_string() == "enum").expect("an enum");
    let name = tokens.next().expect("a name").to_string();
    match tokens.next() {
        Some(TokenTree::Group(group)) => (name, group.stream()),
        _ => panic!("an enum without type parameters"),
    }
}

struct Variant {
    message: String,
    name: String,
    fields: Option<Group>,
}

fn variants(body: TokenStream) -> Vec<Variant> {
    let mut found = Vec::new();
    let mut message = String::new();
    let mut tokens = body.into_iter().peekable();
    while let Some(token) = tokens.next() {
        match token {
            TokenTree::Group(attribute) => message = message_of(attribute.stream()),
            TokenTree::Ident(name) => {
                let fields = match tokens.peek() {
                    Some(TokenTree::Group(group)) => Some(group.clone()),
                    _ => None,
                };
                if fields.is_some() {
                    tokens.next();
                }
                found.push(Variant {
                    message: std::mem::take(&mut message),
                    name: name.to_string(),
                    fields,
                });
            }
            _ => {}
        }
    }
    found
}

/// The format string of `error("...")`, with its quotes.
fn message_of(attribute: TokenStream) -> String {
    match attribute.into_iter().nth(1) {
        Some(TokenTree::Group(group)) => group.stream().to_string(),
        _ => panic!("#[error(\"...\")]"),
    }
}

impl Variant {
    fn arm(&self) -> String {
        let Variant { message, name, .. } = self;
        match &self.fields {
            None => format!("Self::{name} => write!(out, {message}),"),
            Some(group) if group.delimiter() == Delimiter::Parenthesis => {
                format!("Self::{name}(only) => write!(out, {message}, only),")
            }
            Some(group) => {
                let fields = field_names(group.stream()).join(", ");
                format!("Self::{name} {{ {fields} }} => write!(out, {message}),")
            }
        }
    }
}

fn field_names(fields: TokenStream) -> Vec<String> {
    let tokens: Vec<String> = fields.into_iter().map(|token| token.to_string()).collect();
    let named = tokens.windows(2).filter(|pair| pair[1] == ":");
    named.map(|pair| pair[0].clone()).collect()
}
