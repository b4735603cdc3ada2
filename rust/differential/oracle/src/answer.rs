// What the crate `parser` reads, as lines of text. Included once for each of the two crates, which have the same types
// by different names.

/// How the crate ended.
pub enum End {
    /// It read the ledger.
    Read,
    /// It gave an error.
    Error,
    /// It panicked, with this message.
    Panic(String),
}

/// Reads a ledger and appends its entries, one after another, to `out`.
pub fn answer(text: &str, out: &mut String) -> End {
    let start = out.len();
    let read = catch_unwind(AssertUnwindSafe(|| {
        for item in parser::parse_iter::<Decimal>(text) {
            match item {
                Ok(found) => entry(&found, out),
                Err(_) => return End::Error,
            }
        }
        End::Read
    }));
    let end = read.unwrap_or_else(|message| End::Panic(said(&*message)));
    if !matches!(end, End::Read) {
        out.truncate(start);
    }
    end
}

fn entry(entry: &Entry<Decimal>, out: &mut String) {
    match entry {
        Entry::Option(option) => {
            out.push_str("option ");
            quoted(&option.name, out);
            out.push(' ');
            quoted(&option.value, out);
            out.push('\n');
        }
        Entry::Include(path) => {
            out.push_str("include ");
            quoted(&path.to_string_lossy(), out);
            out.push('\n');
        }
        Entry::Directive(directive) => {
            let _ = write!(out, "line {} date ", directive.line_number);
            date(&directive.date, out);
            content(&directive.content, out);
            metadata("meta", &directive.metadata, out);
            if let DirectiveContent::Transaction(transaction) = &directive.content {
                transaction.postings.iter().for_each(|p| posting(p, out));
            }
        }
        _ => out.push_str("an entry that this program does not know\n"),
    }
}

fn content(content: &DirectiveContent<Decimal>, out: &mut String) {
    match content {
        DirectiveContent::Transaction(transaction) => {
            out.push_str(" transaction ");
            flag(transaction.flag, out);
            out.push('\n');
            string("payee", transaction.payee.as_deref(), out);
            string("narration", transaction.narration.as_deref(), out);
            set("tag", transaction.tags.iter().map(|tag| tag.as_str()), out);
            set(
                "link",
                transaction.links.iter().map(|link| link.as_str()),
                out,
            );
        }
        DirectiveContent::Price(price) => {
            let _ = writeln!(out, " price {}", price.currency);
            amount("amount", Some(&price.amount), out);
        }
        DirectiveContent::Balance(balance) => {
            let _ = writeln!(out, " balance {}", balance.account);
            amount("amount", Some(&balance.amount), out);
            if let Some(tolerance) = &balance.tolerance {
                out.push_str("tolerance ");
                number(tolerance, out);
                out.push('\n');
            }
        }
        DirectiveContent::Open(open) => {
            let _ = writeln!(out, " open {}", open.account);
            set(
                "currency",
                open.currencies.iter().map(|currency| currency.as_str()),
                out,
            );
            string(
                "booking",
                open.booking_method.as_ref().map(|method| method.as_ref()),
                out,
            );
        }
        DirectiveContent::Close(close) => {
            let _ = writeln!(out, " close {}", close.account);
        }
        DirectiveContent::Pad(pad) => {
            let _ = writeln!(out, " pad {} {}", pad.account, pad.source_account);
        }
        DirectiveContent::Commodity(currency) => {
            let _ = writeln!(out, " commodity {currency}");
        }
        DirectiveContent::Event(event) => {
            out.push_str(" event ");
            quoted(&event.name, out);
            out.push(' ');
            quoted(&event.value, out);
            out.push('\n');
        }
        _ => out.push_str(" a directive that this program does not know\n"),
    }
}

fn posting(posting: &Posting<Decimal>, out: &mut String) {
    out.push_str("posting ");
    flag(posting.flag, out);
    let _ = writeln!(out, " {}", posting.account);
    amount("amount", posting.amount.as_ref(), out);
    if let Some(cost) = &posting.cost {
        out.push_str("cost ");
        match &cost.date {
            Some(found) => date(found, out),
            None => out.push('-'),
        }
        out.push('\n');
        amount("cost amount", cost.amount.as_ref(), out);
    }
    match &posting.price {
        Some(PostingPrice::Unit(found)) => amount("unit price", Some(found), out),
        Some(PostingPrice::Total(found)) => amount("total price", Some(found), out),
        None => {}
    }
    metadata("posting meta", &posting.metadata, out);
}

fn date(date: &Date, out: &mut String) {
    let number = u32::from(date.year) * 10_000 + u32::from(date.month) * 100 + u32::from(date.day);
    let _ = write!(out, "{number}");
}

fn amount(name: &str, amount: Option<&Amount<Decimal>>, out: &mut String) {
    if let Some(amount) = amount {
        out.push_str(name);
        out.push(' ');
        number(&amount.value, out);
        let _ = writeln!(out, " {}", amount.currency);
    }
}

fn metadata(name: &str, map: &Map<Decimal>, out: &mut String) {
    let mut lines: Vec<(&str, &Value<Decimal>)> = map
        .iter()
        .map(|(key, value)| (key.as_ref(), value))
        .collect();
    lines.sort_unstable_by_key(|(key, _)| *key);
    for (key, value) in lines {
        let _ = write!(out, "{name} {key} ");
        match value {
            Value::String(text) => quoted(text, out),
            Value::Number(value) => number(value, out),
            Value::Currency(currency) => out.push_str(currency.as_str()),
            _ => out.push_str("a value that this program does not know"),
        }
        out.push('\n');
    }
}
