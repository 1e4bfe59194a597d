//! Stand-ins for serde's macros: `Serialize` and `Deserialize` derive nothing, and `serde_as` only removes its
//! helper attributes. So the reference's type definitions compile with their attribute lines unchanged, without
//! serde.

use proc_macro::{Delimiter, Group, TokenStream, TokenTree};

#[proc_macro_derive(Serialize, attributes(serde))]
pub fn serialize(_: TokenStream) -> TokenStream {
    TokenStream::new()
}

#[proc_macro_derive(Deserialize, attributes(serde))]
pub fn deserialize(_: TokenStream) -> TokenStream {
    TokenStream::new()
}

#[proc_macro_attribute]
pub fn serde_as(_: TokenStream, item: TokenStream) -> TokenStream {
    without_helpers(item)
}

/// The tokens without `#[serde_as(..)]`, at any depth.
fn without_helpers(tokens: TokenStream) -> TokenStream {
    let mut kept: Vec<TokenTree> = Vec::new();
    let mut rest = tokens.into_iter().peekable();
    while let Some(token) = rest.next() {
        let is_hash = matches!(&token, TokenTree::Punct(p) if p.as_char() == '#');
        if is_hash && rest.peek().is_some_and(is_helper) {
            rest.next();
            continue;
        }
        kept.push(match token {
            TokenTree::Group(group) => {
                let mut inner = Group::new(group.delimiter(), without_helpers(group.stream()));
                inner.set_span(group.span());
                TokenTree::Group(inner)
            }
            other => other,
        });
    }
    kept.into_iter().collect()
}

fn is_helper(token: &TokenTree) -> bool {
    let TokenTree::Group(group) = token else {
        return false;
    };
    group.delimiter() == Delimiter::Bracket
        && matches!(group.stream().into_iter().next(),
                    Some(TokenTree::Ident(name)) if name.to_string() == "serde_as")
}
