// What Rust's httparse takes for the same streams: a buffer that is fed pieces, a parse of the head at its
// front once bytes have come, and no second parse while a body comes.
use httparse::{Request, Status, EMPTY_HEADER};
use std::time::Instant;

const GET: &[u8] = b"GET /obix/building/floor3/temperature HTTP/1.1\r\nHost: building.example\r\nUser-Agent: obix-client/1.0\r\nAccept: text/xml\r\nConnection: keep-alive\r\n\r\n";
const POST: &[u8] = b"POST /obix/batch HTTP/1.1\r\nHost: building.example\r\nContent-Type: text/xml; charset=utf-8\r\nContent-Length: 4096\r\n\r\n";
const BURSTS: u64 = 12;

#[derive(Default)]
struct Framer {
    bytes: Vec<u8>,
    taken: usize,
    // the head's length, the target's, and the body's, once the head is whole
    front: Option<(usize, usize, usize)>,
}

impl Framer {
    fn feed(&mut self, piece: &[u8]) {
        if self.bytes.len() - self.taken <= self.taken {
            self.bytes.drain(..self.taken);
            self.taken = 0;
        }
        self.bytes.extend_from_slice(piece);
    }

    fn take(&mut self) -> Option<u64> {
        let kept = &self.bytes[self.taken..];
        if self.front.is_none() {
            let mut headers = [EMPTY_HEADER; 64];
            let mut request = Request::new(&mut headers);
            if let Ok(Status::Complete(start)) = request.parse(&kept[..kept.len().min(8192)]) {
                let mut body = 0;
                for header in request.headers.iter() {
                    if header.name.eq_ignore_ascii_case("content-length") {
                        body = std::str::from_utf8(header.value).ok()?.trim().parse().ok()?;
                    }
                }
                self.front = Some((start, request.path?.len(), body));
            }
        }
        let (start, target, body) = self.front?;
        if kept.len() < start + body {
            return None;
        }
        self.taken += start + body;
        self.front = None;
        Some(1 + target as u64 % 2 + body as u64 % 2)
    }
}

fn measure(name: &str, stream: &[u8], length: usize) {
    let (mut quickest, mut weight) = (u128::MAX, 0u64);
    for _ in 0..BURSTS {
        let start = Instant::now();
        let mut framer = Framer::default();
        weight = 0;
        for piece in stream.chunks(length) {
            framer.feed(piece);
            while let Some(more) = framer.take() {
                weight += more;
            }
        }
        quickest = quickest.min(start.elapsed().as_nanos());
    }
    println!("{name} {length} {quickest} {weight}");
}

fn main() {
    let gets = GET.repeat(2_000);
    let mut posts = Vec::new();
    for _ in 0..400 {
        posts.extend_from_slice(POST);
        posts.resize(posts.len() + 4096, b'x');
    }
    for length in [1, 1460, 1 << 30] {
        measure("get", &gets, length);
        measure("post", &posts, length);
    }
}
