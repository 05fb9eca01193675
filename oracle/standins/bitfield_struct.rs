//! Stand-in for the registry crate `bitfield_struct`: the attribute
//! `#[bitfield(uN)]` as far as the repository uses it. Fields lie from bit 0
//! upward in the order written. For a field `x` it makes `x()`, `with_x()`,
//! `set_x()`, `X_BITS` and `X_OFFSET`; for the struct `new()` (all zero),
//! `from_bits`, `into_bits`, both `From`s, `Default` and `Debug`.
//! A value too wide for its field is cut to the field, as the crate does in
//! a release build.
extern crate proc_macro;

use proc_macro::{Delimiter, TokenStream, TokenTree};

struct Field {
    vis: String,
    name: String,
    ty: String,
    bits: Option<u32>,
}

fn fail(what: &str) -> TokenStream {
    format!("::core::compile_error!({what:?});")
        .parse()
        .unwrap()
}

fn int_bits(ty: &str) -> Option<u32> {
    match ty {
        "bool" => Some(1),
        "u8" => Some(8),
        "u16" => Some(16),
        "u32" => Some(32),
        "u64" => Some(64),
        _ => None,
    }
}

/// Takes `pub` or `pub(..)` off the front.
fn vis(t: &[TokenTree], at: &mut usize) -> String {
    let mut out = String::new();
    if matches!(t.get(*at), Some(TokenTree::Ident(i)) if i.to_string() == "pub") {
        out.push_str("pub");
        *at += 1;
        if let Some(TokenTree::Group(g)) = t.get(*at)
            && g.delimiter() == Delimiter::Parenthesis
        {
            out.push_str(&g.to_string());
            *at += 1;
        }
    }
    out
}

/// Takes the attributes off the front, as groups.
fn attrs(t: &[TokenTree], at: &mut usize) -> Vec<proc_macro::Group> {
    let mut out = Vec::new();
    while let (Some(TokenTree::Punct(p)), Some(TokenTree::Group(g))) = (t.get(*at), t.get(*at + 1))
        && p.as_char() == '#'
    {
        out.push(g.clone());
        *at += 2;
    }
    out
}

fn fields(body: TokenStream) -> Result<Vec<Field>, String> {
    let t: Vec<_> = body.into_iter().collect();
    let mut at = 0;
    let mut out = Vec::new();
    while at < t.len() {
        let mut bits = None;
        for a in attrs(&t, &mut at) {
            let inner: Vec<_> = a.stream().into_iter().collect();
            if let [TokenTree::Ident(i), TokenTree::Group(g)] = &inner[..]
                && i.to_string() == "bits"
            {
                let n = g.stream().to_string();
                bits = Some(
                    n.parse()
                        .map_err(|_| format!("bits({n}): a number is needed"))?,
                );
            }
        }
        let vis = vis(&t, &mut at);
        let Some(TokenTree::Ident(name)) = t.get(at) else {
            return Err("a field name is needed".into());
        };
        at += 2; // the name and the colon
        let mut ty = TokenStream::new();
        let mut depth = 0;
        while let Some(tt) = t.get(at) {
            if let TokenTree::Punct(p) = tt {
                match p.as_char() {
                    '<' => depth += 1,
                    '>' => depth -= 1,
                    ',' if depth == 0 => break,
                    _ => {}
                }
            }
            ty.extend([tt.clone()]);
            at += 1;
        }
        at += 1; // the comma
        out.push(Field {
            vis,
            name: name.to_string(),
            ty: ty.to_string(),
            bits,
        });
    }
    Ok(out)
}

#[proc_macro_attribute]
pub fn bitfield(attr: TokenStream, item: TokenStream) -> TokenStream {
    let int = attr.to_string();
    let Some(width) = int_bits(&int).filter(|w| *w >= 8) else {
        return fail("bitfield: one of u8, u16, u32, u64 is needed");
    };
    let t: Vec<_> = item.into_iter().collect();
    let mut at = 0;
    let kept: String = attrs(&t, &mut at)
        .iter()
        .map(|g| format!("#{g}\n"))
        .collect();
    let vis = vis(&t, &mut at);
    let (Some(TokenTree::Ident(kw)), Some(TokenTree::Ident(name)), Some(TokenTree::Group(body))) =
        (t.get(at), t.get(at + 1), t.get(at + 2))
    else {
        return fail("bitfield: a struct with named fields is needed");
    };
    if kw.to_string() != "struct" || body.delimiter() != Delimiter::Brace {
        return fail("bitfield: a struct with named fields is needed");
    }
    let fields = match fields(body.stream()) {
        Ok(f) => f,
        Err(e) => return fail(&e),
    };

    let mut methods = String::new();
    let mut debug = String::new();
    let mut offset = 0;
    for Field {
        vis,
        name,
        ty,
        bits,
    } in &fields
    {
        let Some(bits) = bits.or(int_bits(ty)) else {
            return fail(&format!("bitfield: field {name} needs bits"));
        };
        let upper = name.to_uppercase();
        let (from, into) = match ty.as_str() {
            "bool" => ("bits != 0".to_string(), format!("value as {int}")),
            "u8" | "u16" | "u32" | "u64" | "usize" => {
                (format!("bits as {ty}"), format!("value as {int}"))
            }
            _ => (
                format!("<{ty}>::from_bits(bits as _)"),
                format!("<{ty}>::into_bits(value) as {int}"),
            ),
        };
        methods += &format!(
            "{vis} const {upper}_BITS: usize = {bits};
             {vis} const {upper}_OFFSET: usize = {offset};
             {vis} const fn {name}(&self) -> {ty} {{
                 let bits = (self.0 >> {offset}) & (<{int}>::MAX >> ({width} - {bits}));
                 {from}
             }}
             {vis} const fn with_{name}(self, value: {ty}) -> Self {{
                 let mask = <{int}>::MAX >> ({width} - {bits});
                 let bits = {into};
                 debug_assert!(bits <= mask);
                 Self(self.0 & !(mask << {offset}) | (bits & mask) << {offset})
             }}
             {vis} const fn set_{name}(&mut self, value: {ty}) {{
                 *self = self.with_{name}(value);
             }}\n"
        );
        debug += &format!(".field({name:?}, &self.{name}())");
        offset += bits;
    }
    if offset != width {
        return fail(&format!(
            "bitfield: the fields take {offset} of {width} bits"
        ));
    }

    format!(
        "{kept}
         #[derive(Clone, Copy)]
         #[repr(transparent)]
         {vis} struct {name}({int});
         #[allow(dead_code)]
         impl {name} {{
             {vis} const fn new() -> Self {{ Self(0) }}
             {vis} const fn from_bits(bits: {int}) -> Self {{ Self(bits) }}
             {vis} const fn into_bits(self) -> {int} {{ self.0 }}
             {methods}
         }}
         impl ::core::default::Default for {name} {{
             fn default() -> Self {{ Self::new() }}
         }}
         impl ::core::convert::From<{int}> for {name} {{
             fn from(bits: {int}) -> Self {{ Self(bits) }}
         }}
         impl ::core::convert::From<{name}> for {int} {{
             fn from(v: {name}) -> {int} {{ v.0 }}
         }}
         impl ::core::fmt::Debug for {name} {{
             fn fmt(&self, f: &mut ::core::fmt::Formatter<'_>) -> ::core::fmt::Result {{
                 f.debug_struct({text:?}){debug}.finish()
             }}
         }}",
        text = name.to_string(),
    )
    .parse()
    .unwrap()
}
