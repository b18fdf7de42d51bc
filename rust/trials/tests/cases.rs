//! The named cases, on both implementations.

use second::{is_of_file, Version};
use trials::{engine_check, engine_read, second_check, second_read};

#[test]
fn named_cases() {
    for case in second::cases::cases() {
        let (file, name) = (&case.file, case.name);
        let read = case.by(is_of_file);
        assert_eq!(engine_read(file), read, "engine reads: {name}");
        assert_eq!(second_read(file), read, "second reads: {name}");
        assert_eq!(engine_check(file), case.answer, "engine checks: {name}");
        assert_eq!(second_check(file), case.answer, "second checks: {name}");
    }
}

#[test]
fn the_largest_file() {
    for (version, length) in [
        (Version::One, 6_874),
        (Version::Two, 6_908),
        (Version::Three, 6_908),
    ] {
        let file = trials::largest(version, trials::seed());
        assert_eq!(file.len(), length);
        assert_eq!(trials::agreed(&file, "largest"), (0, 0));
    }
}
