"""What tools/places finds by its name: it had to be read to be known."""
# Twins: names that differ in a type, a size or a constant, `|` between two sets. A set is a place while two of it are there; one that only calls `f::<..>(..)` is not.
TWINS = """
fields: u16_at u32_at u64_at | put_u16 put_u32 build_cells::put_u64 | same_four same_eight
bitmap: ones_of_words ones_of_bytes | clear build_cells::put_zeros repair_runs::clear
build_cells: put_two put_four | stored_len build_frames::stored_by | put_bytes put_value put_key put_db put_list put_item build_write::put_list build_write::put_leaf
build_cells: put_copy stream::put_part values::copy_part
build_frames: list_size leaf_size | segments_for values::segments_for | item_shape build_write::held_at | open_shape build_write::opening_at
build_write: is_value is_opening | larger log_entries::larger
names: compare_stored compare_name compare_units | is_named is_same | has_in_turn has_backslash | lesser test_frames::least values::segment_length | mix repair_runs::mix | hash repair_runs::sum
marvin: after_eights after_words
cells: word_in listing::stamp_of listing::class_length | Cell values::Segment | Row Surveyed
records: key_at name_at head_at leaf_at values::value_at security::described_at | key_fields leaves_fields leaf_fields security::item_at | name_in namesakes::name_at
records: hash_of build_frames::hash_of | is_namesake build_frames::is_namesake | compare_names order_of | Keyed Called Headed Leafed values::Valued values::Entered security::Described
values: each_segment_flaw each_value_flaw | segments_flaw values_flaw | value_at whole_value_flaw
security: is_item has_room
namesakes: is_met build_namesakes::is_met | take_in build_namesakes::take_in | in_block build_namesakes::in_block | block build_namesakes::block | many build_namesakes::many
namesakes: is_repeat build_namesakes::is_repeat | few build_namesakes::few | first_repeated build_namesakes::first_repeat
tree: hash_flaw hint_flaw
search: search_keys search_leaves lookup::search_values | quick_keys quick_leaves | ask_keys ask_last | search_leaf ask_leaf | key_named lookup::value_named
search: search_below quick_below listing::nth_below walk::next_below records::total_of
paths: find_key quick_key | key_look child_look | KeyFound lookup::ValueFound lookup::Spotted listing::KeyFacts listing::KeySecurity | Way lookup::Spot
lookup: value_info quick_info | view_info quick_view_info | value_view quick_view | value_copy quick_copy | child_of quick_child_of | info_by viewed_by | whole_info view_at
lookup: no_value export::short walk::short recovery::refuse | Copied recovery::Marked
listing: nth_subkey nth_value | subkey_in value_in | subkey_below value_below | key_entry value_entry | nth_below nth_of | key_class key_security | key_flaw export::top_flaw
listing: Member KeyClass remnants::Remnant remnants::Filled
remnants: key_remain value_remain | kind_word hive_c::kind_of | narrow_word hive_c::narrow_of
old_log: is_log_base new_log::is_log_base | logged_count new_log::logged_count | is_logged new_log::is_logged | next_logged new_log::next_logged | logged_place new_log::logged_place
old_log: mark new_log::mark | all_in new_log::all_in | put_all new_log::put_all | stamps_agree new_log::applies | head_flaw new_log::read | all_in put_all | is_in put_in
sectors: store_closing new_log::store_closing
new_log: mark_window differ_window | window_count window_next window_in
logs: old_head new_head | old_test new_test | Head new_log::Head | Tested old_log::Tested
bitmap: Next build_measure::Twice security_pass::Sought
recovery: page close all_pages | next_page next_mark | next_of mark_of | NextPage NextMark | Started Stepped Begun
hive_c: key_answer spot_answer | class_told security_told | started stepped mapped
hive_runs: Went repair_runs::Went test_frames::Went | run repair_runs::run test_frames::run | turn repair_runs::turn
repair_runs: map disk | next mark | started all_marked
"""
# The rest of what has to be read: point, kind, and names.
NAMED = """
1 option=remnants::Kind build_frames::Shape search::Turn
1 none=cells::bin_size cells::header_length cells::named_length cells::next_free cells::next_with chains::find chains::find_from build_measure::held_size
1 none=build_measure::value_cells_size build_measure::capped namesakes::in_block namesakes::block namesakes::many namesakes::few namesakes::first_repeated
1 none=build_namesakes::in_block build_namesakes::block build_namesakes::many build_namesakes::few build_namesakes::first_repeat new_log::logged_place remnants::find
1 none=remnants::seek remnants::first build_write::if_any tree::row_child hive_runs::units_of repair_runs::follow
1 flag=security_pass::visit test_frames::payload
1 number=logs::is_new old_log::is_log_base build_write::is_value build_write::is_opening hive_c::REFUSED hive_c::INLINE hive_c::OLD_KEY hive_c::BEFORE fields::NO_KEY
4 order=names::Order build_write::larger log_entries::larger log_entries::later_end names::lesser test_frames::least values::segment_length build_measure::capped
4 equality=fields::same_four fields::same_eight fields::same fields::stands_at
4 copying=bitmap::clear build_cells::put_zeros build_cells::put_low build_cells::put_copy stream::widen stream::put_part repair_runs::clear test_frames::path_units fields::copy_all
4 copying=log_versions::enter_reference log_versions::next hive_runs::take_in repair_runs::set_up repair_runs::obey remnants::fill walk::put_key walk::put_mark remnants::store
4 conversion=fields::to_place fields::to_offset fields::signed fields::i32_at fields::size_of fields::u16_at fields::u32_at fields::u64_at fields::put_u16 fields::put_u32 build_cells::put_u64
4 conversion=test_frames::framed build_frames::kind_shape logs::old_head logs::new_head logs::old_test logs::new_test lookup::in_key lookup::info_of remnants::narrow_word build_cells::flag
4 conversion=security_check::turn_of marvin::sum marvin::rotate names::product names::mix repair_runs::mix
4 printing=test_lines::number test_lines::end test_lines::refused
6 search=search::quick_keys search::quick_leaves
6 rows=remnants::store remnants::fill remnants::rows_in remnants::rows
6 held=test_frames::Held test_frames::log_turn test_frames::path_turn test_frames::good_frame test_frames::payload repair_runs::follow
"""
