//! The normal form's rules, each read off a listing.

use second::build::*;
use second::{list, normalise};

/// The listing of the normal form of y = body, with x over 0..3 beside it.
fn normal_text(bounds: &[(i64, i64)], body: Part) -> String {
    let draft = Draft::default().integer("x", INPUT, &[(0, 3)]);
    let sheet = draft.integer("y", OUTPUT, bounds).body(body).bytes();
    let mut out = vec![0; 65_536];
    let length = normalise(&sheet, &mut out).expect("a normal form");
    let text = list(&out[..length as usize]);
    let body = text.split_once("y = ").expect("a body").1;
    body.to_string()
}

fn constant(value: i64) -> Part {
    everywhere(1, integer(value))
}

#[test]
fn a_leaf_gets_case_restriction_and_identity() {
    let line = [(0, 1)];
    assert_eq!(normal_text(&line, variable(0)), "case\n  {i |} : x.(i -> i);\nesac;\n");
    assert_eq!(normal_text(&[], integer(-4)), "case\n  {|} : (-4).(->);\nesac;\n");
    let far = depend(0, &[(vec![], 2)], variable(0));
    assert_eq!(normal_text(&[], far), "case\n  {|} : x.(-> 2);\nesac;\n");
}

#[test]
fn dependences_become_one() {
    // The outer map goes first, whatever the inner one keeps of it.
    let inner = depend(2, &[(vec![1, 1], 0), (vec![0, 0], 1)], everywhere(2, integer(7)));
    let outer = depend(1, &[(vec![2], 0), (vec![-1], 3)], inner);
    assert_eq!(normal_text(&[(0, 1)], outer), "case\n  {i |} : 7.(i ->);\nesac;\n");
    let inner = depend(2, &[(vec![1, 1], -3)], variable(0));
    let outer = depend(1, &[(vec![2], 0), (vec![-1], 3)], inner);
    assert_eq!(normal_text(&[(0, 3)], outer), "case\n  {i |} : x.(i -> i);\nesac;\n");
    let through = depend(0, &[(vec![], 1)], depend(1, &[], depend(0, &[(vec![], 2)], variable(0))));
    assert_eq!(normal_text(&[], through), "case\n  {|} : x.(-> 2);\nesac;\n");
}

#[test]
fn combinations_restrictions_and_maps() {
    let a = restrict(1, &[at_least(&[1], -1)], variable(0));
    let b = restrict(1, &[at_least(&[-1], 0)], shifted(0, 1));
    let c = restrict(1, &[equal(&[1], -1)], constant(1));
    let d = restrict(1, &[equal(&[1], 0)], constant(2));
    let sum = binary(PLUS, case(&[a, b]), case(&[c, d]));
    let moved = depend(1, &[(vec![-1], 1)], sum);
    let body = restrict(1, &[at_least(&[2], 3)], moved);
    let wanted = "case
  {i | 2*i + 3 >= 0; -i >= 0; -i = 0} : (x.(i -> -i + 1) + 1.(i ->));
  {i | 2*i + 3 >= 0; -i >= 0; -i + 1 = 0} : (x.(i -> -i + 1) + 2.(i ->));
  {i | 2*i + 3 >= 0; i - 1 >= 0; -i = 0} : (x.(i -> -i + 2) + 1.(i ->));
  {i | 2*i + 3 >= 0; i - 1 >= 0; -i + 1 = 0} : (x.(i -> -i + 2) + 2.(i ->));
esac;
";
    assert_eq!(normal_text(&[(0, 1)], body), wanted);
}

#[test]
fn one_case_or_restriction_is_enough() {
    let low = restrict(1, &[at_least(&[-1], 0)], constant(1));
    let high = restrict(1, &[at_least(&[1], -1), at_least(&[0], 5)], constant(2));
    let test = everywhere(1, boolean(true));
    let body = choose(test, restrict(1, &[], variable(0)), case(&[low, case(&[high])]));
    let wanted = "case
  {i | -i >= 0} : (if true.(i ->) then x.(i -> i) else 1.(i ->));
  {i | i - 1 >= 0; 5 >= 0} : (if true.(i ->) then x.(i -> i) else 2.(i ->));
esac;
";
    assert_eq!(normal_text(&[(0, 1)], body), wanted);
}

#[test]
fn outer_constraints_come_before_inner_and_left_before_right() {
    let limit = |k: i64| at_least(&[0], k);
    let left = restrict(1, &[limit(1)], restrict(1, &[limit(2)], constant(1)));
    let right = restrict(1, &[limit(3), limit(3)], negate(restrict(1, &[limit(4)], constant(2))));
    let body = restrict(1, &[limit(0)], case(&[binary(PLUS, left, right)]));
    let wanted = "case
  {i | 0 >= 0; 1 >= 0; 2 >= 0; 3 >= 0; 3 >= 0; 4 >= 0} : (1.(i ->) + (neg 2.(i ->)));
esac;
";
    assert_eq!(normal_text(&[(0, 1)], body), wanted);
}
