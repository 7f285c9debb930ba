//! Stand-in for the macro crate `midi2_proc`. It was written from what the original files expect of it, not
//! from its text.
//!
//! `#[generate_message(MinSizeUmp(n) [, MinSizeBytes(m)])]` on a struct of properties gives:
//!  - `use .. as _` of the buffer and message traits, since the files call their methods without naming them;
//!  - `pub struct Name<B>(pub(crate) B)`;
//!  - MinSize, Data (the first `size()` units), BufferAccess, Grouped;
//!  - TryFrom a slice: too short a slice first, then each property's `validate` in the order declared, but for
//!    `#[writeonly]`;
//!  - `new()` for a resizable buffer: MIN_SIZE units, then each property's default, but for `#[readonly]`;
//!  - a getter and a setter for each property whose type is not `()`; `group` goes to the trait Grouped.
//! `derive(midi2_proc::Debug)` prints the words in hex.
use proc_macro::{Delimiter, TokenStream, TokenTree};

/// A property as declared: its type, name and meta type, and whether it is only read or only written.
#[derive(Default)]
struct Property {
    kind: String,
    name: String,
    meta: String,
    readonly: bool,
    writeonly: bool,
}

/// The text in the parentheses behind a name, if the name is there.
fn argument(attributes: TokenStream, name: &str) -> Option<String> {
    let mut tokens = attributes.into_iter();
    while let Some(token) = tokens.next() {
        if token.to_string() == name {
            if let Some(TokenTree::Group(group)) = tokens.next() {
                return Some(group.stream().to_string());
            }
        }
    }
    None
}

/// Notes one attribute of a property.
fn note_attribute(property: &mut Property, attribute: TokenStream) {
    let mut tokens = attribute.into_iter();
    match tokens.next().expect("a name").to_string().as_str() {
        "property" => {
            let Some(TokenTree::Group(group)) = tokens.next() else {
                panic!("property without a type")
            };
            property.meta = group.stream().to_string();
        }
        "readonly" => property.readonly = true,
        "writeonly" => property.writeonly = true,
        "doc" => {}
        other => panic!("unknown attribute {other}"),
    }
}

/// The properties in the body of the struct.
fn properties(body: TokenStream) -> Vec<Property> {
    let mut all = Vec::new();
    let mut tokens = body.into_iter();
    let mut property = Property::default();
    while let Some(token) = tokens.next() {
        match token {
            TokenTree::Punct(ref mark) if mark.as_char() == '#' => {
                let Some(TokenTree::Group(group)) = tokens.next() else {
                    panic!("attribute")
                };
                note_attribute(&mut property, group.stream());
            }
            TokenTree::Ident(name) => {
                property.name = name.to_string();
                let kind = tokens
                    .by_ref()
                    .skip(1)
                    .take_while(|token| token.to_string() != ",");
                property.kind = kind.collect::<TokenStream>().to_string();
                all.push(std::mem::take(&mut property));
            }
            other => panic!("unexpected {other}"),
        }
    }
    all
}

/// The name and the body of the struct.
fn name_and_body(item: TokenStream) -> (String, TokenStream) {
    let mut name = String::new();
    let mut body = TokenStream::new();
    let mut after_struct = false;
    for token in item {
        match token {
            TokenTree::Ident(word) if after_struct => name = word.to_string(),
            TokenTree::Ident(word) if word.to_string() == "struct" => after_struct = true,
            TokenTree::Group(group) if group.delimiter() == Delimiter::Brace => {
                body = group.stream()
            }
            _ => {}
        }
    }
    (name, body)
}

/// The calls that check each property, in the order declared.
fn validation(properties: &[Property], unit: &str) -> String {
    let read = properties.iter().filter(|property| !property.writeonly);
    read.map(|Property { meta, .. }| {
        format!("<{meta} as crate::detail::property::ReadProperty<&'a [{unit}]>>::validate(&buffer)?;\n")
    })
    .collect()
}

/// The calls that write each property's default, in the order declared.
fn defaults(properties: &[Property]) -> String {
    let write = "crate::detail::property::WriteProperty<B>";
    let written = properties.iter().filter(|property| !property.readonly);
    written
        .map(|Property { meta, .. }| {
            format!("<{meta} as {write}>::write(&mut buffer, <{meta} as {write}>::default());\n")
        })
        .collect()
}

/// The trait Grouped, by the property `group`.
fn grouped(name: &str, meta: &str) -> String {
    format!(
        "impl<B: crate::buffer::Ump> crate::traits::Grouped<B> for {name}<B> {{
            fn group(&self) -> crate::ux::u4 {{
                <{meta} as crate::detail::property::ReadProperty<B>>::read(&self.0)
            }}
            fn set_group(&mut self, group: crate::ux::u4) where B: crate::buffer::BufferMut {{
                <{meta} as crate::detail::property::WriteProperty<B>>::write(&mut self.0, group)
            }}
        }}"
    )
}

/// A property's getter and setter.
fn accessors(property: &Property) -> String {
    let Property {
        kind,
        name,
        meta,
        readonly,
        writeonly,
    } = property;
    let mut text = String::new();
    if !writeonly {
        text += &format!(
            "pub fn {name}(&self) -> {kind} {{
                <{meta} as crate::detail::property::ReadProperty<B>>::read(&self.0)
            }}"
        );
    }
    if !readonly {
        text += &format!(
            "pub fn set_{name}(&mut self, value: {kind}) where B: crate::buffer::BufferMut {{
                <{meta} as crate::detail::property::WriteProperty<B>>::write(&mut self.0, value)
            }}"
        );
    }
    text
}

/// The struct, its traits of size and access, and the traits in scope that the file calls.
fn structure(name: &str, bound: &str, least: &str) -> String {
    format!(
        "#[allow(unused_imports)]
        use crate::buffer::{{Buffer as _, BufferMut as _, BufferDefault as _, BufferResize as _,
            BufferTryResize as _, SpecialiseU8 as _, SpecialiseU32 as _, UnitPrivate as _}};
        #[allow(unused_imports)]
        use crate::traits::{{BufferAccess as _, Data as _, Grouped as _, MinSize as _, Size as _}};

        #[derive(Clone, PartialEq, Eq, Debug)]
        pub struct {name}<B: {bound}>(pub(crate) B);

        impl<B: {bound}> crate::traits::MinSize<B> for {name}<B> {{
            const MIN_SIZE: usize = {least};
        }}
        impl<B: {bound}> crate::traits::Data<B> for {name}<B> {{
            fn data(&self) -> &[B::Unit] {{
                &self.0.buffer()[..<Self as crate::traits::Size<B>>::size(self)]
            }}
        }}
        impl<B: {bound}> crate::traits::BufferAccess<B> for {name}<B> {{
            fn buffer_access(&self) -> &B {{ &self.0 }}
            fn buffer_access_mut(&mut self) -> &mut B where B: crate::buffer::BufferMut {{ &mut self.0 }}
        }}"
    )
}

/// `TryFrom` a slice of units.
fn try_from_slice(name: &str, generics: &str, unit: &str, validation: &str) -> String {
    format!(
        "impl{generics} core::convert::TryFrom<&'a [{unit}]> for {name}<&'a [{unit}]> {{
            type Error = crate::error::InvalidData;
            fn try_from(buffer: &'a [{unit}]) -> Result<Self, Self::Error> {{
                if buffer.len() < <Self as crate::traits::MinSize<&'a [{unit}]>>::MIN_SIZE {{
                    return Err(crate::error::InvalidData(
                        crate::detail::common_err_strings::ERR_SLICE_TOO_SHORT));
                }}
                {validation}
                Ok(Self(buffer))
            }}
        }}"
    )
}

/// `new()` and the accessors.
fn methods(name: &str, bound: &str, defaults: &str, accessors: &str) -> String {
    format!(
        "impl<B: {bound} + crate::buffer::BufferMut + crate::buffer::BufferDefault + crate::buffer::BufferResize>
            {name}<B> {{
            pub fn new() -> Self {{
                let mut buffer = <B as crate::buffer::BufferDefault>::default();
                buffer.resize(<Self as crate::traits::MinSize<B>>::MIN_SIZE);
                {defaults}
                Self(buffer)
            }}
        }}
        impl<B: {bound}> {name}<B> {{
            {accessors}
        }}"
    )
}

/// The attribute on a message's struct.
#[proc_macro_attribute]
pub fn generate_message(attributes: TokenStream, item: TokenStream) -> TokenStream {
    let words = argument(attributes.clone(), "MinSizeUmp").expect("MinSizeUmp");
    let bytes = argument(attributes, "MinSizeBytes");
    let (name, body) = name_and_body(item);
    let properties = properties(body);
    let (bound, generics, unit) = match bytes {
        Some(_) => ("crate::buffer::Buffer", "<'a, U: crate::buffer::Unit>", "U"),
        None => ("crate::buffer::Ump", "<'a>", "u32"),
    };
    let least = match bytes {
        Some(bytes) => format!(
            "if <B::Unit as crate::buffer::UnitPrivate>::UNIT_ID == crate::buffer::UNIT_ID_U32 {{ {words} }}
            else {{ {bytes} }}"
        ),
        None => words,
    };
    let (groups, others): (Vec<_>, Vec<_>) = properties
        .iter()
        .filter(|property| property.name == "group" || property.kind != "()")
        .partition(|property| property.name == "group");
    let parts = [
        structure(&name, bound, &least),
        try_from_slice(&name, generics, unit, &validation(&properties, unit)),
        methods(
            &name,
            bound,
            &defaults(&properties),
            &others.into_iter().map(accessors).collect::<String>(),
        ),
        groups
            .iter()
            .map(|property| grouped(&name, &property.meta))
            .collect(),
    ];
    parts.join("\n").parse().expect("the generated text")
}

/// `derive(Debug)` for a struct of words.
#[proc_macro_derive(Debug)]
pub fn debug(item: TokenStream) -> TokenStream {
    let mut tokens = item
        .into_iter()
        .skip_while(|token| token.to_string() != "struct");
    let name = tokens.nth(1).expect("a name");
    format!(
        "impl core::fmt::Debug for {name} {{
            fn fmt(&self, f: &mut core::fmt::Formatter<'_>) -> core::fmt::Result {{
                write!(f, \"{name}({{:08X?}})\", &self.0)
            }}
        }}"
    )
    .parse()
    .expect("the generated text")
}
