//! mel explain

use crate::args::Args;
use crate::output;
use crate::trouble::{shown, Trouble};
use mooringelm::refusal_text;

/// What is known of a refusal beside its sentence: the place that it names, what usually causes it, what to do.
struct Refusal {
    number: u32,
    place: &'static str,
    cause: &'static str,
    remedy: &'static str,
}

const fn refusal(
    number: u32,
    place: &'static str,
    cause: &'static str,
    remedy: &'static str,
) -> Refusal {
    Refusal {
        number,
        place,
        cause,
        remedy,
    }
}

/// The greatest number of a refusal.
const LAST: u32 = 18;

/// The number that no call gives any more.
const WITHDRAWN: u32 = 16;

const REFUSALS: [Refusal; 17] = [
    refusal(
        1,
        "0",
        "The file is of another format, is packed (gzip, bzip2), or is empty after a copy that failed.",
        "Look at its first line, which starts with ###CBF: VERSION and a number such as 1.5. Unpack it first, \
         or copy it again.",
    ),
    refusal(
        2,
        "the 81st character of the line",
        "A program wrote a text line of more than 80 characters, which newer editions of CIF allow.",
        "Break the line at that place, in the program that writes it if you can.",
    ),
    refusal(
        3,
        "that byte",
        "An accented letter or another byte outside printable ASCII stands in a comment or a header, the file \
         was changed on its way (as text, by mail or FTP), or its sections have no MIME headers.",
        "Look at the byte at that place. Copy the file again as binary, or have it written with MIME headers.",
    ),
    refusal(
        4,
        "0 for a file that is too long; the opening boundary of the 513th section",
        "The file has more than 1,073,741,824 bytes or more than 512 sections.",
        "Have the frames written to several files.",
    ),
    refusal(
        5,
        "the start of that line",
        "A line among the headers of a section has no name with a colon, or the empty line after the headers \
         is missing.",
        "Look at that line. A name has letters, digits and hyphens alone, and the colon stands right after \
         it.",
    ),
    refusal(
        6,
        "the header's line; where one is missing, the empty line after the headers",
        "The section uses what this library does not read (real numbers, another compression than byte \
         offset, another encoding than BINARY and BASE64, big-endian pixels), or a header that is needed \
         (encoding, size, number of elements) is missing.",
        "Look at that header. Have the frame written as integers, uncompressed or with x-CBF_BYTE_OFFSET.",
    ),
    refusal(
        7,
        "the empty line after the headers",
        "The program that wrote the section counted wrongly: the dimensions give another product than the \
         number of elements, a slower dimension stands without a faster one, or the size does not go with the \
         elements.",
        "Correct the header that is wrong; where you cannot tell which, have the frame written again.",
    ),
    refusal(
        8,
        "the byte after the empty line",
        "The four bytes 0C 1A 04 D5 do not follow the headers: the file was changed on its way as text, or is \
         cut there.",
        "Copy the file again as binary.",
    ),
    refusal(
        9,
        "the byte after the declared octets, or the file's length where they run past it; BASE64: the closing \
         line",
        "The file is cut, its X-Binary-Size is wrong, its line ends were changed on the way, or padding \
         stands between the octets and the closing boundary (X-Binary-Size-Padding), which is not read yet.",
        "Compare the file's length with the original's and copy it again as binary. Have it written without \
         padding.",
    ),
    refusal(
        10,
        "that byte; where the text as a whole is wrong, the closing line",
        "The BASE64 text holds a byte that is no letter of it, is cut, has = in the middle, or gives another \
         number of octets than X-Binary-Size says.",
        "Copy the file again; a mail program may have changed it.",
    ),
    refusal(
        11,
        "the semicolon that opens the field",
        "The file is cut, or a text field is opened by a semicolon at the start of a line and never closed.",
        "Compare its length with the original's and copy it again, or close the field with a line that starts \
         with a semicolon.",
    ),
    refusal(
        12,
        "0",
        "The section number is 0, or above the number of sections in the file.",
        "mel list FILE shows the numbers; they start from 1.",
    ),
    refusal(
        13,
        "the section's first octet; BASE64: the byte after the empty line",
        "The octets were damaged on the way, or the program that packed them wrote a pixel outside the \
         element type, such as -1 in an unsigned frame.",
        "Copy the file again; where the original has it too, have the frame written again. Such a section may \
         be replaced.",
    ),
    refusal(
        14,
        "0",
        "The new frame has another number of pixels than the section has elements, or one of its pixels is \
         outside the section's element type, such as -1 in an unsigned frame.",
        "mel list FILE shows elements and type. Give a frame of that many pixels; mask unsigned frames with \
         the greatest value.",
    ),
    refusal(
        15,
        "0",
        "The caller of the library lent too little memory, or the new file would have more than 1,073,741,824 \
         bytes. mel lends enough, so here it is the second.",
        "Split the file, and replace the frame in the part.",
    ),
    refusal(
        17,
        "the section's opening boundary",
        "The catalogue has 32 bytes for the name of a data block, and a name in the file is longer.",
        "Shorten the name in its data_ line, or use mel list, which shows the whole name.",
    ),
    refusal(
        18,
        "0",
        "The octets of a BASE64 section were asked for, or its frame was to be replaced; both are for BINARY \
         sections.",
        "mel unpack reads BASE64 sections too. To replace the frame, have the file written with BINARY \
         sections.",
    ),
];

const WIDTH: usize = 79;

/// A paragraph in lines that fit a terminal.
fn paragraph(text: &str) -> String {
    let mut lines = vec![String::from(" ")];
    for word in text.split(' ') {
        let last = lines.last_mut().expect("there is a line");
        if last.len() + 1 + word.len() > WIDTH {
            lines.push(format!("    {word}"));
        } else {
            last.push(' ');
            last.push_str(word);
        }
    }
    lines.join("\n") + "\n"
}

fn withdrawn() -> String {
    let why = paragraph(
        "Why: it was for a packed frame of more than 1,073,741,824 octets, and no frame has them. A section \
         has at most 67,108,864 pixels, and a pixel takes at most 15 octets: 1,006,632,960 in all. That is \
         proved.",
    );
    let remedy = paragraph(
        "What to do: this library never says it. Where another program does, ask whoever made that program, \
         and send along what it printed.",
    );
    format!(
        "refused {WITHDRAWN}: withdrawn; no call gives it, and it is not used again\n{why}{remedy}"
    )
}

/// What is said of a number, where it is one.
fn explained(number: u32) -> Option<String> {
    if number == WITHDRAWN {
        return Some(withdrawn());
    }
    let refusal = REFUSALS.iter().find(|r| r.number == number)?;
    let sentence = refusal_text(number);
    let place = paragraph(&format!("Place: {}.", refusal.place));
    let cause = paragraph(&format!("Usual cause: {}", refusal.cause));
    let remedy = paragraph(&format!("What to do: {}", refusal.remedy));
    Some(format!(
        "refused {number}: {sentence}\n{place}{cause}{remedy}"
    ))
}

pub fn run(args: &Args) -> Result<u8, Trouble> {
    let texts: Vec<String> = if args.operands.is_empty() {
        (1..=LAST).filter_map(explained).collect()
    } else {
        let found = args.operands.iter().map(|word| {
            let number = word.to_str().and_then(|word| word.parse().ok());
            number.and_then(explained).ok_or_else(|| {
                args.usage(&format!(
                    "there is no refusal {}; the numbers are 1 to {LAST}",
                    shown(word)
                ))
            })
        });
        found.collect::<Result<_, _>>()?
    };
    output::text(&texts.join("\n"))?;
    Ok(0)
}

#[cfg(test)]
mod tests {
    use super::*;

    #[test]
    fn every_number_has_its_sentence() {
        let numbers: Vec<u32> = REFUSALS.iter().map(|r| r.number).collect();
        let given: Vec<u32> = (1..=LAST).filter(|&n| n != WITHDRAWN).collect();
        assert_eq!(numbers, given);
        for number in given {
            assert_ne!(refusal_text(number), refusal_text(0));
            assert!(!refusal_text(number).contains("unknown"));
        }
        for number in [WITHDRAWN, LAST + 1] {
            assert!(refusal_text(number).contains("unknown"));
        }
    }
}
