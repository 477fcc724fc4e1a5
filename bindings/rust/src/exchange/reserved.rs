//! Words that have a meaning of their own in Promela, as Spin 6.5 has them: it takes none of them for a variable's name.

const WORDS: &str = "D_proctype _ _last _nr_pr _pid _priority active assert atomic bit bool break byte c_code c_decl c_expr c_state \
c_track chan d_step do else empty enabled eval false fi for full get_priority goto hidden if init inline int len local ltl mtype \
nempty never nfull notrace np_ od of pc_value pid printf printm priority proctype provided return run select set_priority short show \
skip timeout trace true typedef unless unsigned xr xs";

pub fn is_reserved(word: &str) -> bool {
    WORDS.split(' ').any(|own| own == word)
}
