//! A bill as one page for a browser, with nothing that has to be fetched.
use crate::advice::{flawless, headline};
use crate::desk::Desk;
use crate::glimpse::Glimpse;
use crate::lines::{counted, hex, thousands};
use crate::missed::Kind;
use crate::remedy::{remedy, AFTER_AN_ABORT};
use crate::tally::{End, Operation, Tally};
use oxterin::{Cause, Line};
use std::path::Path;

/// How the page looks, in light and dark, on a wide screen, a narrow one and paper.
const STYLE: &str = include_str!("page.css");

/// How billing works.
const RULE: &str = "A tick for which the part is busy is billed to the account whose frame began the operation, whoever polls or \
                    sends frames while it runs. It is counted from the end of that frame until the operation is finished or a reset \
                    stops it, and a tick for which the part is idle is billed to nobody.";

/// The page of a bill, with the name of the file that the frames come from.
pub fn page(name: &str, tally: &Tally) -> String {
    let name = escaped(&last_of(name));
    let desk = &tally.desk;
    let accounts = desk.accounts();
    format!(
        "<!DOCTYPE html>\n\
         <html lang=\"en\">\n\
         <head>\n\
         <meta charset=\"utf-8\">\n\
         <meta name=\"viewport\" content=\"width=device-width, initial-scale=1\">\n\
         <meta name=\"color-scheme\" content=\"light dark\">\n\
         <title>Bill of {name}</title>\n\
         <style>\n{STYLE}</style>\n\
         </head>\n\
         <body>\n\
         <main>\n\
         <header>\n\
         <p class=\"over\">Busy time of a simulated AT25XE011</p>\n\
         <h1>Bill of <bdi>{name}</bdi></h1>\n\
         <p class=\"summary\">{summary}</p>\n\
         {facts}</header>\n\
         {accounts}{causes}{operations}\
         </main>\n\
         <footer>\n\
         <h2>How billing works</h2>\n\
         <p>{RULE}</p>\n\
         </footer>\n\
         </body>\n\
         </html>\n",
        summary = summary(desk, &accounts),
        facts = facts(desk),
        accounts = accounts_table(desk, &accounts),
        causes = causes_table(tally),
        operations = operations_table(tally),
    )
}

/// The last part of a path.
fn last_of(name: &str) -> String {
    Path::new(name)
        .file_name()
        .map_or_else(|| name.to_string(), |last| last.to_string_lossy().into_owned())
}

/// A text that a browser shows as it is. What cannot be shown, such as the end of a line, becomes the sign for that.
fn escaped(text: &str) -> String {
    let mut safe = String::new();
    for c in text.chars() {
        match c {
            '&' => safe.push_str("&amp;"),
            '<' => safe.push_str("&lt;"),
            '>' => safe.push_str("&gt;"),
            '"' => safe.push_str("&quot;"),
            '\'' => safe.push_str("&#39;"),
            c if c.is_control() => safe.push(char::REPLACEMENT_CHARACTER),
            c => safe.push(c),
        }
    }
    safe
}

/// The bill in a sentence.
fn summary(desk: &Desk, accounts: &[(u8, Line)]) -> String {
    let all = desk.all();
    let (begun, billed) = (counted(all.number, "operation"), counted(all.total, "tick"));
    match accounts {
        [] => "Nothing is billed to anyone, for no frame began an operation.".to_string(),
        [(account, _)] => format!("Account {account} began {begun} and is billed {billed}, all for which the part was busy."),
        _ => {
            let (account, line) = accounts
                .iter()
                .rev()
                .max_by_key(|(_, line)| line.total)
                .expect("there are accounts");
            format!(
                "{} accounts began {begun} and are billed {billed}, all for which the part was busy; account {account} is billed \
                 the most, {}.",
                accounts.len(),
                thousands(line.total)
            )
        }
    }
}

/// What was counted.
fn facts(desk: &Desk) -> String {
    let all = desk.all();
    let facts = [
        ("Frames sent", thousands(desk.frames)),
        ("Operations begun", thousands(all.number)),
        ("Ticks passed", thousands(desk.passed())),
        ("Ticks busy", thousands(all.total)),
    ];
    let fact = |(what, number): (&str, String)| format!("<div><dt>{what}</dt><dd>{number}</dd></div>\n");
    format!("<dl class=\"facts\">\n{}</dl>\n", facts.map(fact).concat())
}

/// A row for each account with its bar, and one for all; nothing if there is no account.
fn accounts_table(desk: &Desk, accounts: &[(u8, Line)]) -> String {
    let all = desk.all();
    let Some(largest) = accounts.iter().map(|(_, line)| line.total).max() else {
        return String::new();
    };
    let rows: String = accounts
        .iter()
        .map(|(account, line)| account_row(*account, *line, largest, all.total))
        .collect();
    format!(
        "<section>\n\
         <h2>Accounts</h2>\n\
         <table class=\"accounts\">\n\
         <thead>\n\
         <tr><th>Account</th><th>Share of the busy ticks</th><th class=\"number\">Ticks billed</th>\
         <th class=\"number\">Most for one operation</th><th class=\"number\">Operations</th></tr>\n\
         </thead>\n\
         <tbody>\n{rows}</tbody>\n\
         <tfoot>\n\
         <tr><th scope=\"row\">All</th><td class=\"share\"></td><td class=\"number total\">{total}</td>\
         <td class=\"number\" data-head=\"Most for one operation\">{most}</td><td class=\"number\" data-head=\"Operations\">{number}</td></tr>\n\
         </tfoot>\n\
         </table>\n\
         </section>\n",
        total = thousands(all.total),
        most = thousands(all.most),
        number = thousands(all.number),
    )
}

/// The row of an account, whose bar is in proportion to the largest total.
fn account_row(account: u8, line: Line, largest: u64, all: u128) -> String {
    format!(
        "<tr><th scope=\"row\">{account}</th><td class=\"share\"><div>{bar}<span>{share}</span></div></td>\
         <td class=\"number total\">{total}</td><td class=\"number\" data-head=\"Most for one operation\">{most}</td>\
         <td class=\"number\" data-head=\"Operations\">{number}</td></tr>\n",
        bar = bar(line.total, largest),
        share = share(line.total, all),
        total = thousands(line.total),
        most = thousands(line.most),
        number = thousands(line.number),
    )
}

/// A bar as long as this part of the whole; none for nothing.
fn bar(part: u64, whole: u64) -> String {
    if part == 0 {
        return String::new();
    }
    let hundredths = 10_000 * u128::from(part) / u128::from(whole);
    format!("<i style=\"width:{}.{:02}%\"></i>", hundredths / 100, hundredths % 100)
}

/// How much of all ticks this part is, to the tenth of a percent.
fn share(part: u64, all: u128) -> String {
    let tenths = (2_000 * u128::from(part) + all) / (2 * all.max(1));
    match tenths {
        0 if part > 0 => "under 0.1 %".to_string(),
        _ => format!("{}.{} %", tenths / 10, tenths % 10),
    }
}

/// A row for each account and cause for which frames of this run were not carried out; nothing if all were.
fn causes_table(tally: &Tally) -> String {
    let missed = &tally.missed;
    if missed.is_empty() {
        return String::new();
    }
    let rows: String = missed.by_account().map(cause_row).collect();
    format!(
        "<section>\n\
         <h2>Frames that were not carried out</h2>\n\
         <p class=\"note\">{}</p>\n\
         <table class=\"causes\">\n\
         <thead>\n\
         <tr><th class=\"number\">Account</th><th>Cause</th><th class=\"number\">Frames</th><th class=\"number\">First line</th>\
         <th>First frame</th><th>What to do</th></tr>\n\
         </thead>\n\
         <tbody>\n{rows}</tbody>\n\
         </table>\n\
         </section>\n",
        causes_note(tally)
    )
}

/// How many frames were not carried out, what an abort did besides, whose frames all were, and what is not counted.
fn causes_note(tally: &Tally) -> String {
    let missed = &tally.missed;
    let aborted = (missed.aborted > 0).then(|| format!("After an abort: {AFTER_AN_ABORT}."));
    let earlier = tally.goes_on.then(|| "Frames of earlier runs are not counted here.".to_string());
    let sentences = [Some(headline(missed)), aborted, flawless(missed), earlier];
    sentences.into_iter().flatten().collect::<Vec<_>>().join(" ")
}

/// The row of an account and a cause.
fn cause_row((account, cause, kind): (u8, Cause, &Kind)) -> String {
    format!(
        "<tr><td class=\"number account\">{account}</td><td class=\"cause\">{cause}</td>\
         <td class=\"number\" data-head=\"Frames\">{frames}</td><td class=\"number\" data-head=\"First line\">{line}</td>\
         <td class=\"first\" data-head=\"First frame\">{name} <code>{bytes}</code></td><td class=\"remedy\">{remedy}</td></tr>\n",
        frames = thousands(kind.frames),
        line = kind.line,
        name = kind.first.name(),
        bytes = bytes(&kind.first),
        remedy = escaped(remedy(cause)),
    )
}

/// A row for each operation; nothing if there is none.
fn operations_table(tally: &Tally) -> String {
    if tally.operations.is_empty() {
        return String::new();
    }
    let rows: String = tally.operations.iter().map(operation_row).collect();
    let earlier = match tally.goes_on {
        true => " The accounts above were also billed for operations of earlier runs, which are not listed here.",
        false => "",
    };
    format!(
        "<section>\n\
         <h2>Operations</h2>\n\
         <p class=\"note\">Each began at the end of the frame beside it. Ticks are counted from the start.{earlier}</p>\n\
         <table class=\"operations\">\n\
         <thead>\n\
         <tr><th class=\"number\">Began at tick</th><th class=\"number\">Line</th><th>Frame</th><th class=\"number\">Account</th>\
         <th class=\"number\">Ticks billed</th><th>Frames sent while it ran</th></tr>\n\
         </thead>\n\
         <tbody>\n{rows}</tbody>\n\
         </table>\n\
         </section>\n"
    )
}

/// The row of an operation.
fn operation_row(operation: &Operation) -> String {
    let begun = operation.begun.as_ref();
    format!(
        "<tr><td class=\"number\" data-head=\"Began at tick\">{tick}</td><td class=\"number\" data-head=\"Line\">{line}</td>\
         <td class=\"frame\">{name} <code>{bytes}</code></td><td class=\"number account\">{account}</td>\
         <td class=\"number billed\" data-head=\"Billed\">{billed} <span class=\"of\">of {duration}</span> <span class=\"end {class}\">{end}</span></td>\
         <td class=\"meanwhile\" data-head=\"While it ran\">{meanwhile}</td></tr>\n",
        tick = begun.map_or_else(|| "earlier".to_string(), |begun| thousands(begun.tick)),
        line = begun.map_or_else(String::new, |begun| begun.line.to_string()),
        name = operation.name(),
        bytes = begun.map_or_else(String::new, |begun| bytes(&begun.frame)),
        account = operation.account,
        billed = thousands(operation.billed),
        duration = thousands(operation.duration),
        class = match operation.end {
            End::Finished => "finished",
            End::Running => "running",
            End::Stopped => "stopped",
        },
        end = operation.end.word(),
        meanwhile = meanwhile(operation),
    )
}

/// The bytes of a frame, the first ones if there are many.
fn bytes(frame: &Glimpse) -> String {
    let first = hex(&frame.first);
    match frame.length > frame.first.len() {
        true => format!("{first} …\u{a0}({}\u{a0}bytes)", thousands(frame.length as u64)),
        false => first,
    }
}

/// Who sent frames while an operation ran, and how many.
fn meanwhile(operation: &Operation) -> String {
    let each = operation.meanwhile.iter();
    let words: Vec<String> = each
        .map(|(account, frames)| format!("<span>account {account}: {}</span>", frames.words()))
        .collect();
    match words.is_empty() {
        true => "<span class=\"none\">none</span>".to_string(),
        false => words.join(" "),
    }
}

#[cfg(test)]
mod tests {
    use super::*;

    #[test]
    fn what_a_file_is_called_is_shown_and_never_obeyed() {
        assert_eq!(escaped("a<b>&\"c\"'d'"), "a&lt;b&gt;&amp;&quot;c&quot;&#39;d&#39;");
        assert_eq!(escaped("über\n\u{1b}[1m"), "über\u{fffd}\u{fffd}[1m");
        assert_eq!(last_of("a/b/c.frames"), "c.frames");
        assert_eq!(last_of("standard input"), "standard input");
        assert_eq!(last_of(".."), "..");
    }

    #[test]
    fn bars_and_shares_are_in_proportion() {
        assert_eq!(bar(1, 3), "<i style=\"width:33.33%\"></i>");
        assert_eq!(bar(u64::MAX, u64::MAX), "<i style=\"width:100.00%\"></i>");
        assert_eq!(bar(0, 0), "");
        assert_eq!([share(1, 3), share(2, 3), share(3, 3)], ["33.3 %", "66.7 %", "100.0 %"]);
        assert_eq!([share(1, 10_000), share(0, 10_000), share(0, 0)], ["under 0.1 %", "0.0 %", "0.0 %"]);
    }
}
