// The same work in plain Rust: a form of 24 rows of 80 carried out as often as the argument says.
struct Screen {
    chars: [u8; 1920],
    marks: [u8; 240],
}

impl Screen {
    fn read(&self, place: usize) -> Option<(u8, bool)> {
        if place >= 1920 {
            return None;
        }
        Some((self.chars[place], self.marks[place / 8] >> (place % 8) & 1 == 1))
    }

    fn write(&mut self, place: usize, code: u8, mark: bool) -> bool {
        if place >= 1920 || !(matches!(code, 0x20..=0x7e | 0x09 | 0x1c..=0x1e)) {
            return false;
        }
        self.chars[place] = code;
        let bit = 1 << (place % 8);
        if mark {
            self.marks[place / 8] |= bit;
        } else {
            self.marks[place / 8] &= !bit;
        }
        true
    }
}

struct State {
    cursor: usize,
    locked: bool,
    light: bool,
}

fn next(place: usize) -> usize {
    if place + 1 < 1920 { place + 1 } else { 0 }
}

fn carry_out(screen: &mut Screen, state: &mut State, text: &[u8]) {
    let mut protected = false;
    let mut locks = false;
    let mut i = 0;
    while i < text.len() {
        let code = text[i];
        match code {
            0x20..=0x7e | 0x1c..=0x1e => {
                screen.write(state.cursor, code, protected);
                state.cursor = next(state.cursor);
                i += 1;
            }
            0x1b if i + 1 < text.len() => match text[i + 1] {
                0x0b => {
                    let data = text[i + 2..].iter().take(2).take_while(|c| matches!(c, 0x20..=0x7e)).count();
                    if data == 2 && text.get(i + 4) == Some(&0x0f) {
                        let (y, x) = ((text[i + 2] - 0x20) as usize, (text[i + 3] - 0x20) as usize);
                        if y < 24 && x < 80 {
                            state.cursor = y * 80 + x;
                        }
                        i += 5;
                    } else {
                        i += 2 + data;
                    }
                }
                0x09 => {
                    screen.write(state.cursor, 0x09, protected);
                    state.cursor = next(state.cursor);
                    i += 2;
                }
                b'M' => {
                    for place in state.cursor..1920 {
                        screen.write(place, 0x20, false);
                    }
                    i += 2;
                }
                0x14 => {
                    locks = true;
                    i += 2;
                }
                _ => i += 2,
            },
            _ => {
                match code {
                    0x0e => protected = true,
                    0x0f => protected = false,
                    0x07 => state.light = true,
                    0x14 => locks = true,
                    0x0d => state.cursor = (state.cursor / 80 + 1) * 80 % 1920,
                    _ => {}
                }
                i += 1;
            }
        }
    }
    state.locked = locks;
}

fn form() -> Vec<u8> {
    let mut text = vec![0x1b, b'M'];
    for row in 0..24u8 {
        text.extend([0x1b, 0x0b, 0x20 + row, 0x20, 0x0f, 0x0e]);
        text.extend((0..19u8).map(|column| b'A' + (row + column) % 26));
        text.extend([0x1b, 0x09, 0x0f]);
        text.extend((0..60u8).map(|column| b'a' + (row + column) % 26));
    }
    text
}

fn main() {
    let rounds: u32 = std::env::args().nth(1).and_then(|word| word.parse().ok()).unwrap_or(3);
    let text = form();
    let mut screen = Screen { chars: [0x20; 1920], marks: [0; 240] };
    let mut state = State { cursor: 0, locked: false, light: false };
    for _ in 0..rounds {
        carry_out(&mut screen, &mut state, std::hint::black_box(&text));
    }
    let mut sum = 0u64;
    for place in 0..1920 {
        let (code, protected) = screen.read(place).unwrap();
        sum = sum.wrapping_mul(31).wrapping_add(code as u64 + u64::from(protected));
    }
    println!("octets {} cursor {} sum {sum}", text.len(), state.cursor);
}
