# Puts a counter into each function whose open calls document 01 counts.
# Nothing else of the original changes.
/^    fn order_type(/s/{$/{ let _open = crate::counted::enter(0);/
/^    fn emit_type(/s/{$/{ let _open = crate::counted::enter(1);/
/^    pub fn get_size_of(/s/{$/{ let _open = crate::counted::enter(2);/
/^    pub fn get_align_of(/s/{$/{ let _open = crate::counted::enter(3);/
/^    fn emit_composite_def(/s/{$/{ let _open = crate::counted::enter(4);/
/^    fn emit_type_decl(/s/{$/{ let _open = crate::counted::enter(4);/
/^    fn emit_type_chain(/s/{$/{ let _open = crate::counted::enter(4);/
s/^            chain\.push(id);$/            chain.push(id); crate::counted::entries(chain.len());/
s/^            bit_diff -= pad_bits;$/            bit_diff -= pad_bits; crate::counted::step();/
s/^pub mod types;$/pub mod types; pub mod counted;/
