# src/register.rs: counter encrypted before adding the amounts
s/payload\(&state\.newest\(\), details, kind, counter, /payload(\&state.newest(), details, kind, state.counter, /
s/let \(kind, counter\) = state\.accepts/let (kind, _counter) = state.accepts/
s/state\.counter = counter;/state.counter = _counter;/
