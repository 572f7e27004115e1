//! The differences D1 to D5, as texts of the source and what stands for them in the patched build. What is called there
//! is in src/switches.rs; with every switch off the patched build does what the source does.

pub struct Difference {
    pub name: &'static str,
    pub file: &'static str,
    pub from: &'static str,
    pub to: &'static str,
}

pub const DIFFERENCES: [Difference; 6] = [
    Difference {
        name: "D1",
        file: "simplify_expressions/simplify_predicates.rs",
        from: "eq_predicates.iter().all(|e| e == &eq_predicates[0])",
        to: "eq_predicates.iter().all(|e| crate::switches::equalities_agree(e, &eq_predicates[0]))",
    },
    Difference {
        name: "D2, lower bounds",
        file: "simplify_expressions/simplify_predicates.rs",
        from: "&& op == &Operator::Gt)",
        to: "&& (op == &Operator::Gt
                || crate::switches::strict_replaces_loose(pred, &predicates[most_restrictive_idx])))",
    },
    Difference {
        name: "D2, upper bounds",
        file: "simplify_expressions/simplify_predicates.rs",
        from: "&& op == &Operator::Lt)",
        to: "&& (op == &Operator::Lt
                || crate::switches::strict_replaces_loose(pred, &predicates[most_restrictive_idx])))",
    },
    Difference {
        name: "D3",
        file: "simplify_expressions/simplify_predicates.rs",
        from: "scalar.try_cmp(current_best)?",
        to: "crate::switches::compare_bounds(scalar, current_best, find_greater)?",
    },
    Difference {
        name: "D4",
        file: "push_down_filter.rs",
        from: "if cols.iter().all(|c| group_expr_columns.contains(c)) {",
        to: "if !crate::switches::takes_nothing(&agg.group_expr)
                && cols.iter().all(|c| group_expr_columns.contains(c)) {",
    },
    Difference {
        name: "D5",
        file: "push_down_filter.rs",
        from: "if join.null_aware {",
        to: "if join.null_aware || crate::switches::infers_nothing(join.join_type) {",
    },
];
