//! docs/REFUSALS.md, from what `refusals --json` answers.

use serde_json::Value;

/// Lines of the page are as long at most.
const WIDTH: usize = 128;

const START: &str = "\
# Refusals

A call of the library, and so a command of the tool, either answers or refuses. A refusal is a **number**, which says which
rule is broken, and a **place**, which says where. The tool adds a sentence:
`refused 9 at grain 1: the grain runs past the end of the file`. This page has for each number what is asked of the bytes,
where the place points, who gives it, what usually causes it and what to try. docs/FORMAT.md has the words and the layout.

`anhkhovet refusals` lists the numbers, and `anhkhovet refusals 9` says what stands here of one: this page is written from what
that command answers, by a test (`rust/tool/tests/refusals.rs`, with ANHKHOVET_WRITE set), which also holds it to the library's
definitions. Calls are named without the `anhkhovet_` of the C face; `vmdk_check` is a program of the repository. Numbers that are missing
here are given by nothing.

Of a chain the layer that was met is named beside the number, and of a disk of several files the extent.
";

const ORDERS: &str = "
## The order in which calls ask

Of several rules that are broken the first in this order is told; each is asked of the whole image before the next. So an image
that is refused 9 may break 12 too: once it is mended, ask again. 43 comes right after 2, before a COWD header is read any
further. Of a text 32 to 34 come line by line, then 33 for a key that is missing. `collapse` asks 1 to 12 and 43 of the lower
image, then of the upper. `chain` asks 1 to 7 and 43 of each layer from the top down. `split` gives 43 for a VMFSSPARSE line,
and 45 for a file that is not of its line's type.

| call | numbers, in their order |
|---|---|
";

pub fn page(told: &Value) -> String {
    let mut page = START.to_string();
    for row in list(&told["refusals"]) {
        page += &section(row);
    }
    page += ORDERS;
    for order in list(&told["orders"]) {
        let numbers: Vec<u64> = list(&order["numbers"])
            .iter()
            .filter_map(Value::as_u64)
            .collect();
        page += &format!(
            "| {} | {} |\n",
            code(order["call"].as_str().unwrap_or("")),
            runs(&numbers)
        );
    }
    page
}

fn list(value: &Value) -> &[Value] {
    value.as_array().map_or(&[], Vec::as_slice)
}

fn text<'a>(row: &'a Value, key: &str) -> &'a str {
    row[key].as_str().unwrap_or("")
}

fn section(row: &Value) -> String {
    let (title, rest) = text(row, "sentence")
        .split_once(": ")
        .unwrap_or((text(row, "sentence"), ""));
    let mut section = format!("\n## {}: {title}\n\n", row["number"]);
    if !rest.is_empty() {
        let (first, others) = rest.split_at(1);
        section += &(wrapped(&format!("{}{others}.", first.to_uppercase()), "") + "\n");
    }
    for by_place in list(&row["by_place"]) {
        section += &format!(
            "- place {}: {}\n",
            text(by_place, "place"),
            text(by_place, "sentence")
        );
    }
    if !list(&row["by_place"]).is_empty() {
        section += "\n";
    }
    let given = format!(
        "calls {}; commands {}.",
        named(&row["calls"]),
        named(&row["commands"])
    );
    let parts = [
        ("Rule", text(row, "rule")),
        ("Place", text(row, "place")),
        ("Given by", &given),
        ("Usual cause", text(row, "cause")),
        ("Try", text(row, "advice")),
    ];
    parts
        .iter()
        .for_each(|(title, text)| section += &wrapped(&format!("- **{title}:** {text}"), "  "));
    section
}

fn named(names: &Value) -> String {
    let names: Vec<String> = list(names)
        .iter()
        .filter_map(Value::as_str)
        .map(code)
        .collect();
    if names.is_empty() {
        return "none".to_string();
    }
    names.join(", ")
}

/// A name as code; what is added to it in words is not.
fn code(name: &str) -> String {
    match name.split_once('\'') {
        Some((name, rest)) => format!("`{name}`'{rest}"),
        None => format!("`{name}`"),
    }
}

/// Numbers with three or more in a row put together.
fn runs(numbers: &[u64]) -> String {
    let mut runs: Vec<(u64, u64)> = Vec::new();
    for number in numbers {
        match runs.last_mut() {
            Some((_, last)) if *last + 1 == *number => *last = *number,
            _ => runs.push((*number, *number)),
        }
    }
    let told = runs.iter().map(|(first, last)| match last - first {
        0 => first.to_string(),
        1 => format!("{first}, {last}"),
        _ => format!("{first} to {last}"),
    });
    told.collect::<Vec<_>>().join(", ")
}

/// A paragraph, its further lines indented.
fn wrapped(paragraph: &str, indent: &str) -> String {
    let mut lines = String::new();
    let mut line = String::new();
    for word in paragraph.split(' ') {
        if line.chars().count() + 1 + word.chars().count() > WIDTH {
            lines += &format!("{}\n", line.trim_end());
            line = indent.to_string();
        }
        line += word;
        line += " ";
    }
    lines + line.trim_end() + "\n"
}
