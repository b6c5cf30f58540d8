//! Listings: what is listed, what is lent, and why a slot has its type, in words.

mod images;

use host::random::Random;
use host::{damage, deep, generate};
use images::*;
use infer_types::parts::{rows, type_kinds, Table, NONE};
use infer_types::*;

#[allow(dead_code)]
#[path = "../examples/board.rs"]
mod board;

#[test]
fn the_board_is_explained_as_it_is_stored() {
    assert_eq!(board::explanations().expect("an explanation"), include_str!("../examples/board.out"));
}

/// The listing by the tables: a variable, then for each in its binding the same, each to its end.
fn listed(tables: &Tables, slot: Slot) -> Vec<(Slot, Option<Inferred<'_>>)> {
    let (mut rows, mut due) = (vec![], vec![slot]);
    let mut is_listed = vec![false; tables.slot_count()];
    while let Some(slot) = due.pop() {
        if std::mem::replace(&mut is_listed[slot.number() as usize], true) {
            continue;
        }
        let binding = tables.binding(slot);
        rows.push((slot, binding));
        let inside: Vec<Slot> = binding.map(Inferred::variables).into_iter().flatten().collect();
        due.extend(inside.into_iter().rev());
    }
    rows
}

/// Slots to ask for: all if there are few, else some.
fn slots(random: &mut Random, count: u32) -> Vec<Slot> {
    let some: Vec<u32> = if count <= 40 { (0..count).collect() } else { vec![0, count / 2, count - 1] };
    let any = (0..5).map(|_| random.below(count.max(1)));
    some.into_iter().chain(any).filter(|&slot| slot < count).map(Slot::from_number).collect()
}

fn starts_as_its_variable(image: &Image, slot: Slot) -> bool {
    let type_of = |row: &[u32]| rows(&image.words, Table::Types).nth(row[0] as usize).expect("a type");
    let start = rows(&image.words, Table::Slots).nth(slot.number() as usize).map(type_of);
    start.is_none_or(|row| row[..2] == [type_kinds::VAR, slot.number()])
}

/// The lines of an explanation before the listing's: one more where the image gives the slot its type.
fn lines_before(image: &Image, slot: Slot) -> usize {
    1 + usize::from(!starts_as_its_variable(image, slot))
}

/// The runner's tables are those of a plain run, its listing is that by the tables, and what one call writes that is lent
/// just enough; one listing word less is refused.
fn compare(runner: &mut Runner, image: &Image, budget: u32, slot: Slot, tables: &Tables) {
    let (own, listing) = runner.infer_listing(&image.words, &image.names, budget, slot).expect("a listing");
    assert_eq!(own, tables);
    assert_eq!(listing.rows().collect::<Vec<_>>(), listed(tables, slot));
    assert!(listing.words().len() <= 4 * tables.steps as usize);

    let wanted = listing.words().len();
    let mut work = vec![1; work_words(image.words.len(), budget)];
    let mut lent = vec![7; tables.words().len() + wanted + 2];
    let (table_words, listing_words) = lent.split_at_mut(tables.words().len() + 1);
    let mut call = |listing: &mut [u32]| {
        let (words, names) = (&image.words, &image.names);
        let answer = infer_listing_into(words, names, budget, &mut work, table_words, slot, listing);
        assert!(work.iter().all(|&word| word == 0));
        work.fill(9);
        answer
    };
    let refused = Answer { number: Refusal::LISTING_WORDS, steps: tables.steps, ..Answer::default() };
    let answer = call(&mut listing_words[..wanted - 1]);
    assert_eq!(answer, ListingAnswer { answer: refused, listing_words: wanted as u32 });
    assert!(listing_words.iter().all(|&word| word == 7));
    let answer = call(listing_words);
    assert_eq!((answer.answer.number, answer.answer.steps), (Answer::DONE, tables.steps));
    assert_eq!(answer.listing_words as usize, wanted);
    assert_eq!(listing_words, [listing.words(), &[7]].concat());
    assert_eq!(table_words, [tables.words(), &[7]].concat());
    assert!(ListingRows::new(&listing_words[..wanted]).eq(listing.rows()));
}

#[test]
fn listings_of_random_images() {
    let mut random = Random::new(3);
    let mut runner = Runner::new();
    let (mut done, mut refused) = (0, vec![]);
    for _ in 0..1_500 {
        let words = random.pick(&[60, 120, 300, 600, 2_000]);
        let valid = generate::valid(&mut random, words);
        let input = if random.below(8) == 0 { damage::damaged(&mut random, &valid) } else { valid.input };
        let image = of_words(input.image, input.names);
        let run = infer_types(&image.words, &image.names, 65_536);
        let Ok(tables) = run else {
            let listed = runner.infer_listing(&image.words, &image.names, 65_536, Slot::from_number(NONE));
            let refusal = run.expect_err("a refusal");
            assert_eq!(listed.expect_err("a refusal"), refusal);
            refused.push(refusal.number);
            continue;
        };
        let count = tables.slot_count() as u32;
        for slot in slots(&mut random, count) {
            compare(&mut runner, &image, tables.steps, slot, &tables);
            let explained = runner.infer_listing(&image.words, &image.names, 65_536, slot);
            let (tables, listing) = explained.expect("a listing");
            let lines = listing.explain(tables, &image).to_string().lines().count();
            assert_eq!(lines, listing.rows().count() + lines_before(&image, slot));
            done += 1;
        }
        for slot in [count, count + 1, NONE].map(Slot::from_number) {
            let listed = runner.infer_listing(&image.words, &image.names, 65_536, slot);
            let refusal = Refusal { number: Refusal::SLOT, steps: tables.steps, table_words: 0 };
            assert_eq!(listed.expect_err("no slot"), refusal);
        }
    }
    refused.sort();
    refused.dedup();
    assert!(done > 5_000 && refused.len() > 8, "{done} {refused:?}");
}

/// A slot that isn't there comes after the tables, and the listing's length after both.
#[test]
fn refusals_in_their_order() {
    let image = row_a(true);
    let tables = infer_types(&image.words, &image.names, 1_024).expect("tables");
    let mut work = vec![1; work_words(image.words.len(), tables.steps)];
    let mut number = |budget, table_words, slot, listing_words| {
        let (mut tables, mut listing) = (vec![7; table_words], vec![7; listing_words]);
        let (work, slot) = (&mut work, Slot::from_number(slot));
        let answer =
            infer_listing_into(&image.words, &image.names, budget, work, &mut tables, slot, &mut listing);
        if answer.answer.number != Answer::DONE {
            assert!(tables.iter().chain(&listing).all(|&word| word == 7));
        }
        (answer.answer.number, answer.answer.steps, answer.answer.table_words, answer.listing_words)
    };
    let (steps, words) = (tables.steps, tables.words().len());
    assert_eq!(number(steps + 1, 0, 9, 0), (Refusal::WORK_WORDS, 0, 0, 0));
    assert_eq!(number(steps - 1, 0, 9, 0), (Refusal::OUT_OF_STEPS, steps - 1, 0, 0));
    assert_eq!(number(steps, words - 1, 9, 0), (Refusal::TABLE_WORDS, steps, words as u32, 0));
    assert_eq!(number(steps, words, 2, 0), (Refusal::SLOT, steps, 0, 0));
    assert_eq!(number(steps, words, 1, 0), (Refusal::LISTING_WORDS, steps, 0, 2));
    assert_eq!(number(steps, words, 1, 2), (Answer::DONE, steps, words as u32, 2));
    let listed = infer_listing(&image.words, &image.names, 1_024, Slot::from_number(2));
    let refusal = listed.expect_err("no slot");
    assert_eq!(refusal.fault(), Fault::Caller);
    assert_eq!(
        refusal.to_string(),
        "refused with 17: The slot whose listing is asked for isn't in the tables: ask for one below the run's count of slots."
    );
    let refusal = Refusal { number: Refusal::LISTING_WORDS, ..refusal };
    assert_eq!(refusal.fault(), Fault::Caller);
}

/// More steps, table words and listing words than are lent at first.
#[test]
fn a_runner_lends_what_a_listing_needs() {
    let mut runner = Runner::new();
    for image in [costly(9, 12), costly(3, 2), long_listing()] {
        let tables = infer_types(&image.words, &image.names, 65_536).expect("tables");
        for slot in [0, 1].map(Slot::from_number) {
            compare(&mut runner, &image, tables.steps, slot, &tables);
            let (own, listing) =
                runner.infer_listing(&image.words, &image.names, 65_536, slot).expect("a listing");
            assert_eq!((own, listing.rows().next()), (&tables, Some((slot, tables.binding(slot)))));
        }
    }
    let image = long_listing();
    let (tables, listing) =
        infer_listing(&image.words, &image.names, 65_536, Slot::from_number(0)).expect("a listing");
    assert!(listing.words().len() > image.words.len());
    let mut runner = Runner::new().table_words_at_most(tables.words().len() - 1);
    let refused = runner.infer_listing(&image.words, &image.names, 65_536, Slot::from_number(0));
    assert_eq!(refused.expect_err("a refusal").number, Refusal::TABLE_WORDS);
}

/// A loaded global of a type that is longer, written out, than the image.
fn long_listing() -> Image {
    costly(9, 0)
}

#[test]
fn a_listing_in_numbers() {
    let (image, [x, _]) = named(["x", "y"], |_, block, [x, y]| {
        block.call(y, x, &[]).returns(y);
    });
    let (tables, listing) =
        infer_listing(&image.words, &image.names, 1_024, image.slot_of(x)).expect("a listing");
    assert_eq!(listing.to_string(), "list 0 function none var 3\nlist 3 none\n");
    assert_eq!(listing.words(), [0, 5, NONE, 0, 3, 3, NONE]);
    assert_eq!(listed(&tables, image.slot_of(x)), listing.rows().collect::<Vec<_>>());
}

/// A screen of one block over identifiers of these names.
fn named<const N: usize>(
    texts: [&str; N],
    write: impl FnOnce(&mut Builder, &mut Block, [Identifier; N]),
) -> (Image, [Identifier; N]) {
    screen(|image, block| {
        let identifiers = texts.map(|text| image.named(text));
        write(image, block, identifiers);
        identifiers
    })
}

/// A screen of one block, and what its writer gives.
fn screen<T>(write: impl FnOnce(&mut Builder, &mut Block) -> T) -> (Image, T) {
    let (mut image, mut block) = (Builder::new(), Block::new());
    let screen = image.function();
    let given = write(&mut image, &mut block);
    let out = image.identifier();
    image.body(screen, Body::other(out).block(block));
    (image.finish().expect("a body"), given)
}

fn why(image: &Image, slot: Slot) -> String {
    let (tables, listing) = infer_listing(&image.words, &image.names, 65_536, slot).expect("a listing");
    listing.explain(&tables, image).to_string()
}

#[test]
fn one_variable_alone() {
    let (image, [known, unknown]) = named(["known", "unknown"], |_, block, [known, _]| {
        block.primitive(known);
    });
    assert_eq!(
        why(&image, image.slot_of(known)),
        "Why known is a primitive value:
  known is that by itself: it leads to no other value
"
    );
    assert_eq!(
        why(&image, image.slot_of(unknown)),
        "Why unknown is not known:
  nothing in the screen says what it is
"
    );
}

/// What is found first is explained at length; after that it is above.
#[test]
fn a_variable_is_explained_once() {
    let (image, [x, ..]) = named(["x", "a", "b", "c"], |image, block, [x, a, b, c]| {
        let array = image.object(shapes::ARRAY);
        block.phi(x, &[a, b, c]).load_local(a, b).load_local(b, c).load_global(c, Some(array));
    });
    assert_eq!(
        why(&image, image.slot_of(x)),
        "Why x is one of: an object of shape Array, an object of shape Array, an object of shape Array:
  x is known to be one of: a, b, c
    a is the same as b
      b is the same as c
        c is known to be an object of shape Array
"
    );
    let (image, [x, ..]) = named(["x", "a", "b", "c"], |_, block, [x, a, b, c]| {
        block.phi(x, &[b, a, c]).phi(a, &[b, c]).call(c, b, &[]);
    });
    assert_eq!(
        why(&image, image.slot_of(x)),
        "Why x is one of: a function returning slot 5, one of (a function returning slot 5, slot 5), slot 5:
  x is known to be one of: b, a, c
    b is known to be a function returning slot 5
      slot 5 is not known: nothing in the screen says what it is
    a is known to be one of: b (see above), c
      c is the same as slot 5 (see above)
"
    );
}

#[test]
fn every_kind_of_type() {
    let (image, [x, ..]) = named(["x", "y"], |image, block, [x, y]| {
        let slot = image.slot_of(y);
        let (poly, primitive, var) = (image.poly(), image.primitive(), image.var(slot));
        let (pair, unnamed) = (image.shape_named("Pair", &[]), image.shape(&[]));
        let [pair, plain] = [Some(pair), None].map(|shape| image.object(shape));
        let method = image.object_method();
        let made = image.constructor_type(unnamed, primitive);
        let (none, one) = (image.phi_type(&[]), image.phi_type(&[method]));
        let inner = image.phi_type(&[none, one, poly]);
        let returned = image.phi_type(&[pair, plain, inner, made, var]);
        let function = image.function_type(shapes::SET_STATE, returned);
        block.load_global(x, Some(function)).load_global(y, None);
    });
    let text = "a function of shape SetState returning one of: an object of shape Pair, an object, \
                one of (one of none, one of (an object's method), anything), \
                a constructor of shape 10 returning a primitive value, y";
    assert_eq!(
        why(&image, image.slot_of(x)),
        format!(
            "Why x is {text}:
  x is known to be {text}
    y is not known: nothing in the screen says what it is
"
        )
    );
}

#[test]
fn slots_are_called_by_their_names() {
    let (image, [out, shared]) = screen(|image, block| {
        let shared = image.slot();
        let texts = ["total", "sum", "total", "", "all", "whole"].map(|text| image.name(text));
        let [total, ..] = texts.map(|name| image.identifier_of(shared, Some(name)));
        let (again, call, out) = (image.named("total"), image.described("total()"), image.named("out"));
        block.call(call, again, &[]).phi(out, &[again, total, call]);
        [image.slot_of(out), shared]
    });
    assert_eq!(
        why(&image, out),
        "Why out is one of: a function returning slot 5, total (slot 0), slot 5:
  out is known to be one of: total (slot 1), total (slot 0), total()
    total (slot 1) is known to be a function returning slot 5
      slot 5 is not known: nothing in the screen says what it is
    total (slot 0), also named sum, all and whole, is not known: nothing in the screen says what it is
    total() is the same as slot 5 (see above)
"
    );
    assert_eq!(
        why(&image, shared),
        "Why total is not known:
  it is also named sum, all and whole, and nothing in the screen says what it is
"
    );
}

/// Bytes that are no text, ends of lines, more letters than anybody reads, and none.
#[test]
fn odd_texts_stay_on_their_line() {
    let long = "x".repeat(5_000);
    let texts = ["a\nb\u{2028}c", &long, &"\u{e9}".repeat(60), "\r", ""];
    let printed = ["a\u{FFFD}b\u{FFFD}c", &(long[..60].to_string() + "..."), texts[2], "\u{FFFD}"];
    let (image, (names, described, no_text)) = screen(|image, _| {
        let names = texts.map(|text| image.named(text));
        (names, texts.map(|text| image.described(text)), image.named(b"a\xFFb"))
    });
    let check = |identifier, text: &str| {
        let expected = format!("Why {text} is not known:\n  nothing in the screen says what it is\n");
        assert_eq!(why(&image, image.slot_of(identifier)), expected);
    };
    for (at, text) in printed.into_iter().enumerate() {
        check(names[at], text);
        check(described[at], text);
    }
    check(names[4], "slot 4");
    check(described[4], "slot 9");
    check(no_text, "a\u{FFFD}b");
}

#[test]
fn odd_names_of_shapes_stay_on_their_line() {
    let long = "x".repeat(5_000);
    for (name, printed) in [("a\nb", "a\u{FFFD}b"), (&long, &(long[..60].to_string() + "...")), ("", "9")] {
        let (image, [x]) = named(["x"], |image, block, [x]| {
            let shape = image.shape_named(name, &[]);
            let object = image.object(shape);
            block.load_global(x, Some(object));
        });
        assert_eq!(
            why(&image, image.slot_of(x)),
            format!(
                "Why x is an object of shape {printed}:\n  x is that by itself: it leads to no other value\n"
            )
        );
    }
}

/// A parameter that nothing mentions isn't visited: the tables have its variable, the listing what is known of it.
#[test]
fn a_slot_that_is_not_visited() {
    let mut image = Builder::new();
    let (screen, out, props) = (image.function(), image.identifier(), image.named("props"));
    image.body(screen, Body::component(out).param(props));
    let image = image.finish().expect("a body");
    let slot = image.slot_of(props);
    assert_eq!(type_in_tables(&image, slot), format!("var {}", slot.number()));
    assert_eq!(
        why(&image, slot),
        "Why props is an object of shape Props:
  props is that by itself: it leads to no other value
"
    );
}

fn type_in_tables(image: &Image, slot: Slot) -> String {
    infer_types(&image.words, &image.names, 1_024).expect("tables").slot(slot).to_string()
}

/// A slot that the image gives a type has it, and a variable beside it, bound to one of the same kind or another.
#[test]
fn a_type_that_the_image_gives() {
    let mut image = Builder::new();
    let (screen, array) = (image.function(), image.object(shapes::ARRAY));
    let [props_slot, given_slot] = [(); 2].map(|()| image.slot_with_type(array));
    let [props, given] = ["props", "given"].map(|text| image.name(text));
    let props = image.identifier_of(props_slot, Some(props));
    let given = image.identifier_of(given_slot, Some(given));
    let (x, out) = (image.named("x"), image.identifier());
    let mut block = Block::new();
    block.load_local(x, given).primitive(given);
    image.body(screen, Body::component(out).param(props).block(block));
    let image = image.finish().expect("a body");
    assert_eq!(type_in_tables(&image, props_slot), "object 4");
    assert_eq!(
        why(&image, props_slot),
        "Why props is an object of shape Array:
  this follows from the type that the image gives it, beside which it has a variable:
  the variable of props is known to be an object of shape Props
"
    );
    assert_eq!(type_in_tables(&image, given_slot), "object 4");
    assert_eq!(
        why(&image, given_slot),
        "Why given is an object of shape Array:
  this follows from the type that the image gives it, beside which it has a variable:
  the variable of given is known to be a primitive value
"
    );
    assert_eq!(
        why(&image, image.slot_of(x)),
        "Why x is a primitive value:
  x is the same as the variable of given
    the variable of given is known to be a primitive value
"
    );
}

/// The image gives a slot another one's variable: that is resolved where the slot is visited, and stays where it isn't.
#[test]
fn a_variable_that_the_image_gives() {
    let (image, [visited, unvisited]) = screen(|image, block| {
        let (x, y) = (image.named("x"), image.name("y"));
        let slot = image.slot_of(x);
        let of = image.var(slot);
        let slots = [(); 2].map(|()| image.slot_with_type(of));
        let [visited, _] = slots.map(|slot| image.identifier_of(slot, Some(y)));
        block.primitive(x).load_global(visited, None);
        slots
    });
    assert_eq!(type_in_tables(&image, visited), "primitive");
    assert_eq!(
        why(&image, visited),
        "Why y is a primitive value:
  this follows from the type that the image gives it, beside which it has a variable:
  the variable of y is not known: nothing in the screen says what it is
"
    );
    assert_eq!(type_in_tables(&image, unvisited), "var 0");
    assert_eq!(
        why(&image, unvisited),
        "Why y is the same as x (slot 0):
  this follows from the type that the image gives it, beside which it has a variable:
  the variable of y is not known: nothing in the screen says what it is
"
    );
}

/// The first line has the beginning of a long type, the row all of it.
#[test]
fn a_long_type_is_cut_in_the_first_line() {
    let text = why(&long_listing(), Slot::from_number(0));
    let lines: Vec<&str> = text.lines().collect();
    let parts = |line: &str| line.matches("one of").count() + line.matches("a primitive value").count();
    assert_eq!((lines.len(), parts(lines[0]), parts(lines[1])), (2, 40, 1_023));
    assert!(lines[0].ends_with("...:") && lines[1].starts_with("  slot 0 is known to be one of: one of ("));
}

/// Deep images, on a small stack: a line for each row, and no line grows with their number.
#[test]
fn deep_listings_are_explained() {
    let explain = || {
        let mut longest = 0;
        for case in deep::deep() {
            let image = of_words(case.input.image, case.input.names);
            let mut runner = Runner::new();
            let run = |runner: &mut Runner, slot| {
                let listed = runner.infer_listing(&image.words, &image.names, 65_536, slot);
                listed.map(|(tables, listing)| {
                    (tables.slot_count() as u32, listing.clone(), listing.explain(tables, &image).to_string())
                })
            };
            let Ok((slots, ..)) = run(&mut runner, Slot::from_number(0)) else { continue };
            for slot in [0, 1, slots / 2, slots - 1].map(Slot::from_number) {
                let (_, listing, text) = run(&mut runner, slot).expect("a listing");
                let rows = listing.rows().count();
                assert_eq!(text.lines().count(), rows + lines_before(&image, slot), "{}", case.name);
                assert!(text.lines().all(|line| !line.starts_with(&" ".repeat(41))), "{}", case.name);
                assert!(text.len() < 100 * (rows + 40) + 30 * listing.words().len(), "{}", case.name);
                longest = longest.max(rows);
            }
        }
        assert!(longest > 8_000, "{longest}");
    };
    let thread = std::thread::Builder::new().stack_size(2 << 20).spawn(explain).expect("a thread");
    thread.join().expect("a test that passes");
}
