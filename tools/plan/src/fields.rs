//! The fields of a plan's schema.

use push_down_filter::image::Tree;
use push_down_filter::text::words::{word, TYPES};
use push_down_filter::text::Names;
use push_down_filter::{Plan, Type};

/// Qualifier and name.
pub type Name = (u32, u32);

#[derive(Clone, Copy, Debug, PartialEq, Eq)]
pub struct Field {
    pub name: Name,
    /// 1 integer, 2 boolean.
    pub of: u32,
}

impl Field {
    /// `t1.c2:int`
    pub fn written(&self, names: &Names) -> String {
        format!("{}:{}", names.column(self.name.0, self.name.1), word(&TYPES, self.of))
    }
}

/// Qualifier and name of a column, a field or an entry.
pub fn name(tree: &Tree) -> Name {
    (tree.label.p, tree.label.q)
}

/// The fields of an accepted plan.
pub fn fields(plan: &Tree) -> Vec<Field> {
    let schema = Plan::of_tree(plan).map(|plan| plan.schema()).unwrap_or_default();
    let field = |(name, of): (push_down_filter::Name, Option<Type>)| Field {
        name: (name.qualifier, name.name),
        of: of.map_or(0, Type::number),
    };
    schema.into_iter().map(field).collect()
}

#[cfg(test)]
mod tests {
    use super::*;
    use push_down_filter::text::read;

    #[test]
    fn fields_of_every_kind() {
        let scans = "  TableScan 1 [t1.c1:int]\n  TableScan 2 [t2.c1:bool]\n";
        let one = "  TableScan 1 [t1.c1:bool]\n";
        let cases = [
            (format!("Join Full\n{scans}"), "t1.c1:int t2.c1:bool"),
            (format!("Join LeftAnti\n{scans}"), "t1.c1:int"),
            (format!("Join RightSemi\n{scans}"), "t2.c1:bool"),
            (format!("Union\n{scans}"), "t1.c1:int"),
            (format!("Window [c5 := Count(t1.c1)]\n{one}"), "t1.c1:bool c5:int"),
            (format!("Aggregate group [c5 := t1.c1] entries [c6 := Count(TRUE)]\n{one}"), "c5:bool c6:int"),
            (
                format!("Projection [c5 := 7, c6 := NULL:bool, c7 := t1.c1, c8 := f1:int()]\n{one}"),
                "c5:int c6:bool c7:bool c8:int",
            ),
            (format!("SubqueryAlias t7\n{one}"), "t7.c1:bool"),
            (format!("Filter t1.c1\n{one}"), "t1.c1:bool"),
        ];
        for (text, expected) in cases {
            let plan = read(&text, &Names::NONE).unwrap_or_else(|trouble| panic!("{trouble}")).plan;
            let found: Vec<String> = fields(&plan).iter().map(|field| field.written(&Names::NONE)).collect();
            assert_eq!(found.join(" "), expected, "{text}");
        }
    }
}
