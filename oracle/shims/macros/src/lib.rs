//! Stand-ins for two attribute macros: `tracing::instrument` and `derive_where::derive_where`.
//! They know just the item shapes that the original uses.

use proc_macro::{Delimiter, TokenStream, TokenTree};

/// Leaves the function as it is.
#[proc_macro_attribute]
pub fn instrument(_arguments: TokenStream, item: TokenStream) -> TokenStream {
    item
}

/// `#[derive_where(Debug, Default, Clone; X: Cx)]`: the item, and one impl for each trait.
#[proc_macro_attribute]
pub fn derive_where(arguments: TokenStream, item: TokenStream) -> TokenStream {
    let shape = Shape::of(item.clone());
    let mut out = item;
    for token in arguments {
        match token {
            TokenTree::Punct(p) if p.as_char() == ';' => break,
            TokenTree::Ident(name) => {
                let text = shape.implement(&name.to_string());
                out.extend(text.parse::<TokenStream>().expect("derive_where: generated text"));
            }
            _ => {}
        }
    }
    out
}

/// What an impl needs to know of a struct or an enum.
struct Shape {
    name: String,
    /// `'a, X: Cx`
    generics: String,
    /// `'a, X`
    arguments: String,
    fields: Vec<String>,
}

impl Shape {
    fn of(item: TokenStream) -> Shape {
        let mut tokens = item.into_iter();
        loop {
            match tokens.next().expect("derive_where: a struct or an enum") {
                TokenTree::Ident(i) if ["struct", "enum"].contains(&i.to_string().as_str()) => {
                    break;
                }
                _ => {}
            }
        }
        let name = tokens.next().expect("derive_where: a name").to_string();
        let mut generics = Vec::new();
        for token in tokens {
            match token {
                TokenTree::Group(g) if g.delimiter() == Delimiter::Brace => {
                    let inner = &generics[1..generics.len() - 1];
                    return Shape {
                        name,
                        generics: text(inner),
                        arguments: arguments(inner),
                        fields: fields(g.stream()),
                    };
                }
                other => generics.push(other),
            }
        }
        panic!("derive_where: a body in braces")
    }

    fn implement(&self, which: &str) -> String {
        let Shape { name, generics, arguments, fields } = self;
        let each = |value: &dyn Fn(&String) -> String| {
            fields.iter().map(|f| format!("{f}: {},", value(f))).collect::<String>()
        };
        let (path, method) = match which {
            "Debug" => (
                "::core::fmt::Debug",
                format!(
                    "fn fmt(&self, f: &mut ::core::fmt::Formatter<'_>) -> ::core::fmt::Result {{ \
                     f.write_str({name:?}) }}"
                ),
            ),
            "Default" => (
                "::core::default::Default",
                format!(
                    "fn default() -> Self {{ {name} {{ {} }} }}",
                    each(&|_| "::core::default::Default::default()".to_string())
                ),
            ),
            "Clone" => (
                "::core::clone::Clone",
                format!(
                    "fn clone(&self) -> Self {{ {name} {{ {} }} }}",
                    each(&|f| format!("::core::clone::Clone::clone(&self.{f})"))
                ),
            ),
            other => panic!("derive_where: no stand-in for {other}"),
        };
        format!("impl<{generics}> {path} for {name}<{arguments}> {{ {method} }}")
    }
}

fn text(tokens: &[TokenTree]) -> String {
    tokens.iter().cloned().collect::<TokenStream>().to_string()
}

/// The parameters' names without their bounds.
fn arguments(generics: &[TokenTree]) -> String {
    let is = |t: &TokenTree, c: char| matches!(t, TokenTree::Punct(p) if p.as_char() == c);
    let names = generics.split(|t| is(t, ',')).map(|parameter| {
        text(parameter.split(|t| is(t, ':')).next().expect("derive_where: a parameter"))
    });
    names.collect::<Vec<_>>().join(", ")
}

/// The names of a struct's fields: each is the identifier before the first colon of its field.
fn fields(body: TokenStream) -> Vec<String> {
    let (mut names, mut last, mut open, mut angles) = (Vec::new(), String::new(), true, 0);
    for token in body {
        match token {
            TokenTree::Ident(i) => last = i.to_string(),
            TokenTree::Punct(p) => match p.as_char() {
                ':' if open => {
                    names.push(last.clone());
                    open = false;
                }
                '<' => angles += 1,
                '>' => angles -= 1,
                ',' if angles == 0 => open = true,
                _ => {}
            },
            _ => {}
        }
    }
    names
}
