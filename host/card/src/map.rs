//! The map of a chip that `show` draws, of what the second program sees (see
//! `inspect`).

use crate::json::Json;
use crate::paint::Paint;
use second::block::{Block, Used};
use second::blocks::{Blocks, Role};
use second::card::Card;

/// A card with more blocks than this is drawn in two columns, to fit a screen.
const MOST_ROWS: usize = 16;
/// What a screen is wide.
const WIDTH: usize = 80;
/// The pages of a block are shown by their logical pages if this is wide enough.
const WIDTH_FOR_PAGES: usize = 40;
/// In two columns, how far a block is filled is shown by so many signs, or by fewer if
/// the rest of the line needs more room.
const BAR_WIDTH: usize = 8;
/// Between two columns.
const GAP: &str = "   ";

/// The map, and below it how many blocks have which role, and what to do.
pub fn draw_with_summary(card: &Card, paint: Paint) -> String {
    let blocks = Blocks::on(card);
    let mut lines = vec![draw(card, paint), summary(card, &blocks)];
    lines.extend(hint(card, &blocks).map(String::from));
    lines.join("\n") + "\n"
}

/// The map alone.
pub fn draw(card: &Card, paint: Paint) -> String {
    let blocks = Blocks::on(card);
    let style = Style::of(card, &blocks, WIDTH);
    let plain = drawn(card, &blocks, &style, Paint::Plain);
    let widest = plain.lines().map(str::len).max().unwrap_or(0);
    let style = Style::of(card, &blocks, WIDTH - widest.saturating_sub(WIDTH));
    drawn(card, &blocks, &style, paint)
}

fn drawn(card: &Card, blocks: &Blocks, style: &Style, paint: Paint) -> String {
    let in_breach: Vec<usize> =
        blocks.breaches().into_iter().flat_map(|breach| breach.blocks).collect();
    let numbered = blocks.iter().enumerate();
    let cells: Vec<Cell> = numbered
        .map(|(number, block)| {
            Cell::new(card, number, block, blocks, style).marked_if(in_breach.contains(&number))
        })
        .collect();
    table(&cells, style, paint).join("\n") + "\n"
}

/// How the pages of a block are shown.
enum Style {
    /// Each by its logical page, so many signs wide.
    LogicalPages { pages: usize, width: usize },
    /// Each by a sign.
    Signs { pages: usize },
    /// All together by a bar, so many signs wide.
    Bar { pages: usize, width: usize },
}

impl Style {
    /// The style for a line of this width. What is short of the width of a screen is
    /// taken from the pages: half of it from each of two columns.
    fn of(card: &Card, blocks: &Blocks, line: usize) -> Style {
        let short = WIDTH - line;
        let pages = card.shape.pages;
        let highest =
            blocks.iter().filter_map(used).map(|used| (used.logical_block + 1) * pages - 1);
        let width = highest.max().unwrap_or(0).to_string().len();
        if card.blocks > MOST_ROWS {
            Style::Bar { pages, width: BAR_WIDTH.saturating_sub(short.div_ceil(2)).max(1) }
        } else if pages * (width + 1) <= WIDTH_FOR_PAGES - short.min(WIDTH_FOR_PAGES) {
            Style::LogicalPages { pages, width }
        } else {
            Style::Signs { pages }
        }
    }

    fn titles(&self) -> [&'static str; 5] {
        match self {
            Style::Bar { width, .. } => ["b", "role    ", "l", "number", &"fill"[..4.min(*width)]],
            _ => ["block", "role    ", "logical", "number", "pages"],
        }
    }

    fn columns(&self) -> usize {
        match self {
            Style::Bar { .. } => 2,
            _ => 1,
        }
    }

    fn pages_of(&self, block: &Block) -> String {
        let programmed = used(block).map_or(0, |used| used.offsets.len());
        match (self, block) {
            (_, Block::Bad | Block::Broken(_)) => String::new(),
            (Style::LogicalPages { pages, width }, _) => {
                let held = used(block).into_iter().flat_map(|used| {
                    used.offsets.iter().map(|offset| used.logical_block * pages + offset)
                });
                let mut signs: Vec<String> = held.map(|a| format!("{a:>width$}")).collect();
                signs.resize_with(*pages, || format!("{:>width$}", "."));
                signs.join(" ")
            }
            (Style::Signs { pages }, _) => "#".repeat(programmed) + &".".repeat(pages - programmed),
            (Style::Bar { pages, width }, _) => bar(programmed, *pages, *width),
        }
    }
}

/// A bar in which `#` is full and `+` is partly so.
fn bar(programmed: usize, pages: usize, width: usize) -> String {
    let full = programmed * width / pages;
    let partly = (programmed * width).div_ceil(pages) - full;
    let empty = width - full - partly;
    ["#".repeat(full), "+".repeat(partly), ".".repeat(empty)].concat()
}

fn used(block: &Block) -> Option<&Used> {
    match block {
        Block::Used(used) => Some(used),
        _ => None,
    }
}

/// What is drawn of one block.
struct Cell {
    role: Role,
    marked: bool,
    fields: [String; 5],
}

impl Cell {
    fn new(card: &Card, number: usize, block: &Block, blocks: &Blocks, style: &Style) -> Cell {
        let role = blocks.role(block);
        let name = match block {
            Block::Broken(rule) => format!("BROKEN {rule}"),
            Block::Bad => format!("BAD p{}", maker_marks(card, number)),
            _ => name(role).to_string(),
        };
        let of_used = |field: fn(&Used) -> String| used(block).map_or(String::new(), field);
        Cell {
            role,
            marked: matches!(role, Role::Bad | Role::Broken | Role::Obsolete),
            fields: [
                number.to_string(),
                name,
                of_used(|used| used.logical_block.to_string()),
                of_used(|used| used.number.to_string()),
                style.pages_of(block),
            ],
        }
    }

    /// Marked as well if it breaks a rule together with other blocks, which its role
    /// does not tell.
    fn marked_if(self, in_breach: bool) -> Cell {
        Cell { marked: self.marked || in_breach, ..self }
    }
}

/// The pages of a block with the maker's mark.
fn maker_marks(card: &Card, block: usize) -> String {
    let pages: Vec<String> = card.marked_pages(block).iter().map(usize::to_string).collect();
    pages.join(",")
}

/// Capitals for what is to stand out without colour.
fn name(role: Role) -> &'static str {
    match role {
        Role::Data => "data",
        Role::Live => "log",
        Role::Free => "free",
        Role::Obsolete => "OBSOLETE",
        Role::Bad => "BAD",
        Role::Broken => "BROKEN",
    }
}

/// The lines of the table, its titles first.
fn table(cells: &[Cell], style: &Style, paint: Paint) -> Vec<String> {
    let titles = style.titles().map(String::from);
    let widths = [0, 1, 2, 3, 4].map(|i| {
        let fields = cells.iter().map(|cell| &cell.fields).chain([&titles]);
        fields.map(|fields| fields[i].len()).max().unwrap_or(0)
    });

    let height = cells.len().div_ceil(style.columns());
    let columns: Vec<&[Cell]> = cells.chunks(height).collect();
    let head = vec![line(' ', &titles, &widths); columns.len()];
    let mut lines = vec![head.join(GAP).trim_end().to_string()];
    for row in 0..height {
        let cells = columns.iter().filter_map(|column| column.get(row));
        let drawn: Vec<String> = cells
            .map(|cell| {
                let mark = if cell.marked { '!' } else { ' ' };
                paint.role(cell.role, &line(mark, &cell.fields, &widths))
            })
            .collect();
        lines.push(drawn.join(GAP).trim_end().to_string());
    }
    lines
}

fn line(mark: char, fields: &[String; 5], widths: &[usize; 5]) -> String {
    let [block, role, logical, number, pages] = fields;
    let [b, r, l, n, p] = *widths;
    format!("{mark} {block:>b$}  {role:<r$}  {logical:>l$}  {number:>n$}  {pages:<p$}")
}

/// The map for other programs.
pub fn to_json(card: &Card) -> Json {
    let blocks = Blocks::on(card);
    let numbered = blocks.iter().enumerate();
    let each = numbered.map(|(number, block)| {
        let used = used(block);
        let broken = match block {
            Block::Broken(rule) => Json::text(rule.to_string()),
            _ => Json::Null,
        };
        let held = used.into_iter().flat_map(|used| {
            used.offsets.iter().map(|offset| used.logical_block * card.shape.pages + offset)
        });
        Json::Object(vec![
            ("block", Json::number(number)),
            ("role", Json::text(name(blocks.role(block)).to_lowercase())),
            ("breaks", broken),
            ("marked_pages", Json::numbers(card.marked_pages(number))),
            ("logical_block", Json::number_if_any(used.map(|used| used.logical_block))),
            ("number", Json::number_if_any(used.map(|used| used.number as usize))),
            ("logical_pages", Json::numbers(held)),
        ])
    });
    Json::Object(vec![
        ("pages_per_block", Json::number(card.shape.pages)),
        ("blocks", Json::List(each.collect())),
        ("well_formed", Json::Flag(blocks.breaches().is_empty())),
    ])
}

fn summary(card: &Card, blocks: &Blocks) -> String {
    let roles = [Role::Data, Role::Live, Role::Free, Role::Obsolete, Role::Bad, Role::Broken];
    let counts = roles.into_iter().filter_map(|role| {
        let count = blocks.iter().filter(|block| blocks.role(block) == role).count();
        match role {
            Role::Live => Some(format!("{count} log (at most {})", card.shape.logs)),
            Role::Data | Role::Free => Some(format!("{count} {}", name(role))),
            _ => (count > 0).then(|| format!("{count} {}", name(role))),
        }
    });
    let counts: Vec<String> = counts.collect();
    format!("{} blocks of {} pages: {}", card.blocks, card.shape.pages, counts.join(", "))
}

/// What the card would refuse for. As in its answers the first that applies is named:
/// power-up erases nothing on a card that is not well-formed.
fn hint(card: &Card, blocks: &Blocks) -> Option<&'static str> {
    if (card.good_blocks() as u128) < card.shape.good_blocks_needed() {
        Some("! too few good blocks for this shape: `card check` says more")
    } else if !blocks.breaches().is_empty() {
        Some("! not well-formed: `card check` says where")
    } else if !blocks.obsolete().is_empty() {
        Some("! obsolete blocks: `card power-up` erases them")
    } else {
        None
    }
}
