# src/receipt.rs: cancellation left out of the sum
s/Kind::Standard \| Kind::Cancellation => \{/Kind::Standard => {/
s/Kind::Training => counter as i128,/Kind::Cancellation | Kind::Training => counter as i128,/
