//! The derive of the enumset stand-in, for enums without fields.

use proc_macro::{TokenStream, TokenTree};

#[proc_macro_derive(EnumSetType)]
pub fn enum_set_type(input: TokenStream) -> TokenStream {
    let mut tokens = input.into_iter();
    let name = loop {
        match tokens.next() {
            Some(TokenTree::Ident(word)) if word.to_string() == "enum" => match tokens.next() {
                Some(TokenTree::Ident(name)) => break name,
                other => panic!("a name after enum, not {other:?}"),
            },
            Some(_) => (),
            None => panic!("only enums can be members of a set"),
        }
    };
    format!(
        "impl Copy for {name} {{}}
         impl Clone for {name} {{ fn clone(&self) -> Self {{ *self }} }}
         impl PartialEq for {name} {{ fn eq(&self, other: &Self) -> bool {{ *self as u32 == *other as u32 }} }}
         impl Eq for {name} {{}}
         impl ::enumset::EnumSetType for {name} {{ fn bit(self) -> u32 {{ 1 << (self as u32) }} }}"
    )
    .parse()
    .unwrap()
}
