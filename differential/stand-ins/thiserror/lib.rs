//! Stands for the crate `thiserror`, so that the original's lib.rs and record.rs are compiled unchanged. It derives
//! what they ask for and no more: of structs and enums whose fields have no names and no generics, `Display` from
//! `#[error("..")]` or `#[error(transparent)]`, `source` from `#[source]` and `#[from]`, and `From`.

use proc_macro::{Delimiter, Group, TokenStream, TokenTree};

/// A struct, or one variant of an enum.
struct Case {
    path: String,
    /// What is in `#[error(..)]`.
    error: String,
    fields: Vec<Field>,
}

struct Field {
    ty: String,
    from: bool,
    source: bool,
}

/// Attributes, by name and by what is in them, and the tokens after them.
type Part = (Vec<(String, String)>, Vec<TokenTree>);

#[proc_macro_derive(Error, attributes(error, from, source))]
pub fn derive(input: TokenStream) -> TokenStream {
    let (attributes, item) = part(input.into_iter().collect());
    let word = item.iter().position(|token| matches!(&token.to_string()[..], "enum" | "struct"));
    let item = &item[word.expect("a struct or an enum")..];
    let name = item[1].to_string();
    let cases = if item[0].to_string() == "struct" {
        vec![case("", attributes, &item[1..])]
    } else {
        let variants = parts(body(item).expect("variants"));
        variants.into_iter().map(|(attributes, tokens)| case(&name, attributes, &tokens)).collect()
    };
    code(&name, &cases).parse().expect("Rust")
}

/// Takes the attributes off the front of `tokens`.
fn part(tokens: Vec<TokenTree>) -> Part {
    let mut attributes = Vec::new();
    let mut rest = &tokens[..];
    while let [TokenTree::Punct(hash), TokenTree::Group(group), after @ ..] = rest {
        assert!(hash.as_char() == '#');
        let inner: Vec<TokenTree> = group.stream().into_iter().collect();
        let within = body(&inner).map_or(String::new(), |group| group.stream().to_string());
        attributes.push((inner[0].to_string(), within));
        rest = after;
    }
    (attributes, rest.to_vec())
}

/// What is between the commas of `group`.
fn parts(group: &Group) -> Vec<Part> {
    let tokens: Vec<TokenTree> = group.stream().into_iter().collect();
    let split = tokens.split(|token| token.to_string() == ",");
    split.filter(|tokens| !tokens.is_empty()).map(|tokens| part(tokens.to_vec())).collect()
}

/// The fields, variants or arguments.
fn body(tokens: &[TokenTree]) -> Option<&Group> {
    tokens.iter().find_map(|token| match token {
        TokenTree::Group(group) if group.delimiter() != Delimiter::Bracket => Some(group),
        _ => None,
    })
}

/// A variant of the enum `of`, or a struct where that is empty.
fn case(of: &str, attributes: Vec<(String, String)>, tokens: &[TokenTree]) -> Case {
    let error = attributes.into_iter().find(|(name, _)| name == "error").expect("#[error(..)]").1;
    let fields = body(tokens).map_or(Vec::new(), parts);
    let field = |(attributes, tokens): Part| Field {
        ty: tokens.into_iter().collect::<TokenStream>().to_string(),
        from: attributes.iter().any(|(name, _)| name == "from"),
        source: attributes.iter().any(|(name, _)| name == "from" || name == "source"),
    };
    let name = tokens[0].to_string();
    let path = if of.is_empty() { name } else { format!("{of}::{name}") };
    Case { path, error, fields: fields.into_iter().map(field).collect() }
}

fn code(name: &str, cases: &[Case]) -> String {
    let (mut display, mut source, mut from) = (String::new(), String::new(), String::new());
    for Case { path, error, fields } in cases {
        let names: Vec<String> = (0..fields.len()).map(|i| format!("_f{i}")).collect();
        let open = if fields.is_empty() { String::new() } else { format!("({})", names.join(", ")) };
        let caused = fields.iter().position(|field| field.source);
        let (shown, cause) = if error == "transparent" {
            ("::std::fmt::Display::fmt(_f0, f)".into(), "::std::error::Error::source(_f0)".into())
        } else {
            let argument = if error.contains("{0") { ", _f0" } else { "" };
            let cause = caused.map_or("None".into(), |i| format!("Some(_f{i})"));
            (format!("::std::write!(f, {error}{argument})"), cause)
        };
        display += &format!("{path}{open} => {shown},");
        source += &format!("{path}{open} => {cause},");
        if let [Field { ty, from: true, .. }] = &fields[..] {
            let body = format!("fn from(_f0: {ty}) -> Self {{ {path}(_f0) }}");
            from += &format!("impl ::std::convert::From<{ty}> for {name} {{ {body} }}");
        }
    }
    let formatter = "f: &mut ::std::fmt::Formatter<'_>";
    let cause = "::std::option::Option<&(dyn ::std::error::Error + 'static)>";
    format!(
        "impl ::std::fmt::Display for {name} {{
            fn fmt(&self, {formatter}) -> ::std::fmt::Result {{ match self {{ {display} }} }}
        }}
        impl ::std::error::Error for {name} {{
            fn source(&self) -> {cause} {{ match self {{ {source} }} }}
        }}
        {from}"
    )
}
