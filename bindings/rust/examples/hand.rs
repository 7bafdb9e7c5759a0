// A hand between two seats. With `rs_poker` in the place of `peatcloak` the same lines do the same.

use peatcloak::arena::GameStateBuilder;
use peatcloak::arena::errors::GameStateError;

fn main() {
    let builder = GameStateBuilder::new().stacks([100.0, 100.0]).blinds(10.0, 5.0);
    let mut table = builder.build().expect("two stacks and two blinds make a table");
    for _ in 0..3 {
        table.advance_round(); // to Preflop
    }
    for blind in [5.0, 10.0] {
        let paid = table.do_bet(blind, true).expect("a blind is taken as it comes");
        println!("posts {paid}");
    }
    assert_eq!(table.do_bet(9.0, false), Err(GameStateError::BetSizeDoesntCall));
    assert_eq!(table.do_bet(20.0, false), Ok(15.0));
    println!("seat {} faces {}", table.to_act_idx(), table.current_round_bet());
    table.fold();
    println!("complete: {}", table.is_complete());
}
