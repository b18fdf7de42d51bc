//! Colours and fonts. The colours of roles are light, so that words can be read on them.

/// The colours of the roles 1 to 16.
const ROLES: [&str; 16] = [
    "#a6cee3", "#fdbf6f", "#b2df8a", "#f7a8b8", "#cab2d6", "#f4e06d", "#8fd8cc", "#d9b38c",
    "#b8c4d6", "#ff9d8a", "#d6e685", "#e3a8e3", "#8fb8ff", "#ffd9b3", "#b5ead7", "#d0d0d0",
];

/// The rules that do not depend on the file.
const RULES: &str = "text{font-family:sans-serif;font-size:12px;fill:#222}
.name{font-size:16px;font-weight:bold}
.heading{font-weight:bold}
.remark,.number{fill:#666}
.number,.small{font-size:10px}
.small{text-anchor:middle}
.band rect{shape-rendering:crispEdges}
.frame{fill:#f7f7f5;stroke:#d5d5d0}
.line{fill:none;stroke:#777}
.box{fill:#fff;stroke:#777}
.wrong{stroke:#c00000;stroke-width:3}
.mark{stroke:#555;fill:#eee}
.refusal rect{fill:#fff;stroke:#c00000}
.refusal text,.foot{fill:#a00000;font-weight:bold}
";

/// The picture's style, with the colours of these roles.
pub fn style(roles: &[u16]) -> String {
    let colour = |&role: &u16| {
        let colour = ROLES[usize::from(role) - 1];
        format!(".role-{role} rect{{fill:{colour}}}\n")
    };
    let colours: String = roles.iter().map(colour).collect();
    format!("<style type=\"text/css\">\n{RULES}{colours}</style>\n")
}
