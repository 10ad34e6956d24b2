//! Stand-in for the crate `thiserror`: `derive(Error)` on enums. An error's text is its debug text; each field marked `#[from]` gets its `From`.
use proc_macro::{Delimiter, TokenStream, TokenTree};

#[proc_macro_derive(Error, attributes(error, from, source))]
pub fn derive_error(input: TokenStream) -> TokenStream {
    let tokens: Vec<TokenTree> = input.into_iter().collect();
    let at = tokens.iter().position(|t| t.to_string() == "enum").expect("derive(Error) is for enums");
    let name = tokens[at + 1].to_string();
    let body = group(&tokens[at + 2], Delimiter::Brace).expect("an enum has a body");

    let mut text = format!(
        "impl ::std::fmt::Display for {name} {{
            fn fmt(&self, f: &mut ::std::fmt::Formatter<'_>) -> ::std::fmt::Result {{ write!(f, \"{{self:?}}\") }}
        }}
        impl ::std::error::Error for {name} {{}}"
    );
    for (variant, source) in from_variants(body) {
        text += &format!(
            "impl ::std::convert::From<{source}> for {name} {{ fn from(source: {source}) -> Self {{ {name}::{variant}(source) }} }}"
        );
    }
    text.parse().unwrap()
}

/// The variants of one field marked `#[from]`, each with the field's type.
fn from_variants(body: TokenStream) -> Vec<(String, String)> {
    let tokens: Vec<TokenTree> = body.into_iter().collect();
    tokens
        .windows(2)
        .filter_map(|pair| match &pair[0] {
            TokenTree::Ident(variant) => {
                let source = from_field(group(&pair[1], Delimiter::Parenthesis)?)?;
                Some((variant.to_string(), source))
            }
            _ => None,
        })
        .collect()
}

fn from_field(field: TokenStream) -> Option<String> {
    let tokens: Vec<TokenTree> = field.into_iter().collect();
    let mark = group(tokens.get(1)?, Delimiter::Bracket)?;
    (mark.to_string() == "from").then(|| tokens[2..].iter().cloned().collect::<TokenStream>().to_string())
}

fn group(token: &TokenTree, delimiter: Delimiter) -> Option<TokenStream> {
    match token {
        TokenTree::Group(g) if g.delimiter() == delimiter => Some(g.stream()),
        _ => None,
    }
}
