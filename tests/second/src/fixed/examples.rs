//! Fixed cases: E1 to E12 of document 01.

use super::{title};
use crate::cases::{Sheet, BUSES};
use rules::model::*;

pub fn examples(sheet: &mut Sheet) {
    sheet.note("E1 version request, I2C");
    sheet.room(256);
    sheet.encode(Bus::I2c, 256, 0, 8, 0, 0, &[]);
    sheet.note("E2 version reply");
    sheet.board(Bus::I2c, 256, 128, 0);
    sheet.frame(8, &[0x00, 0xf3]);
    sheet.decode(Bus::I2c, 0, 8, 0, &[0x00, 0x02, 0x02, 0x02, 0x23]);
    sheet.note("E3 finalize, E4 start");
    sheet.encode(Bus::I2c, 256, 7, 8, 0, 0, &[]);
    sheet.encode(Bus::I2c, 256, 5, 8, 0, 0, &[]);
    sheet.frame(8, &[0x07, 0xe6]);
    sheet.frame(8, &[0x05, 0xe8]);
    sheet.note("E5 INVALID_CRC reply, E6 plain OK");
    sheet.fresh();
    sheet.frame(8, &[0x00, 0xf2]);
    sheet.write(0, &[]);
    sheet.note("E7 version request, RS485");
    sheet.encode(Bus::Rs485, 256, 0, 8, 0, 0, &[]);
    sheet.board(Bus::Rs485, 256, 128, 0);
    sheet.frame(8, &[0x08, 0x00, 0x06, 0x70]);
    sheet.note("E8 reset, E9 reset address");
    for bus in BUSES {
        sheet.encode(bus, 256, 262, 0, 0, 0, &[]);
        sheet.encode(bus, 256, 260, 0, 0, 0, &[]);
    }
    sheet.frame(0, &[0x00, 0x46, 0x80, 0x42]);
    sheet.frame(0, &[0x00, 0x44, 0x01, 0x83]);
    for bus in BUSES {
        uploads_of_the_examples(sheet, bus);
    }
}

fn uploads_of_the_examples(sheet: &mut Sheet, bus: Bus) {
    title(sheet, "E10 70 bytes, finalize", bus);
    sheet.board(bus, 256, 128, 0);
    sheet.write(0, &[0x11; 70]);
    sheet.finalize();
    sheet.read_flash(0, 128);
    title(sheet, "E11 the same upload again", bus);
    sheet.write(0, &[0x11; 70]);
    sheet.finalize();
    title(sheet, "E12 one byte more after E10", bus);
    sheet.board(bus, 256, 128, 0);
    sheet.write(0, &[0x11; 70]);
    sheet.finalize();
    sheet.write(70, &[0x22]);
    sheet.finalize();
}
