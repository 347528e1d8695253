// Marks the first path of the gasket in gasket.txt: prints cut. compare/face has all declarations, and safe calls over them.
#[repr(C)]
struct Record {
    start_index: u32,
    end_index_offset: u32,
    updated_start: [f64; 3],
    updated_end_bulge: f64,
    end_point: [f64; 2],
    inverted_direction: u32,
    cut_number: u32,
}

extern "C" {
    fn bf_view_mark(
        outline: *const f64,
        outline_len: usize,
        closed: u8,
        record: *const Record,
        record_len: usize,
        line_limit: f64,
        out: *mut u8,
        out_len: usize,
    ) -> u8;
}

fn main() {
    let outline = [20.0, 0.0, 0.0, 80.0, 0.0, 1.0, 80.0, 40.0, 0.0, 20.0, 40.0, 1.0];
    let path = Record {
        start_index: 0,
        end_index_offset: 2,
        updated_start: [50.0, 0.0, 0.0],
        updated_end_bulge: 0.0,
        end_point: [50.0, 40.0],
        inverted_direction: 0,
        cut_number: 17,
    };
    let mut cut = 0;
    let refusal = unsafe { bf_view_mark(outline.as_ptr(), 12, 1, &path, 64, 1e-8, &mut cut, 1) };
    println!("{}", if refusal == 0 && cut == 1 { "cut" } else { "hold" });
}
