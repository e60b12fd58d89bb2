//! Chromium by way of chromedriver: WebDriver's protocol, JSON over HTTP on the loopback. Every request has a time limit, and
//! all requests together have one. The browser and chromedriver end with the session, however it ends.

use crate::json::{self, quoted, Json};
use std::io::{Read, Write};
use std::net::{Ipv4Addr, SocketAddr, TcpListener, TcpStream};
use std::os::unix::fs::MetadataExt;
use std::path::{Path, PathBuf};
use std::process::{Child, Command, Stdio};
use std::time::{Duration, Instant};

pub type Outcome<T> = Result<T, String>;

const REQUEST_LIMIT: Duration = Duration::from_secs(30);
const START_LIMIT: Duration = Duration::from_secs(20);
/// The name under which WebDriver's answers give an element.
const ELEMENT: &str = "element-6066-11e4-a52e-4f735466cecf";

pub struct Driver {
    chromedriver: Child,
    address: SocketAddr,
    session: String,
    /// The browser's process, once there is one.
    browser: Option<usize>,
    profile: PathBuf,
    deadline: Instant,
}

/// A size of the window, in pixels of the page, and how many of the screen's make one.
#[derive(Clone, Copy)]
pub struct Screen {
    pub width: u32,
    pub height: u32,
    pub scale: u32,
}

impl Driver {
    /// Starts chromedriver and a headless browser, with all requests to be over within the limit. The folder is the browser's
    /// to write to.
    pub fn start(folder: &Path, limit: Duration) -> Outcome<Driver> {
        // A port that is free now; chromedriver takes it in the next moment.
        let listener = TcpListener::bind((Ipv4Addr::LOCALHOST, 0)).map_err(|fault| fault.to_string())?;
        let address = listener.local_addr().map_err(|fault| fault.to_string())?;
        drop(listener);
        let chromedriver = Command::new("chromedriver")
            .arg(format!("--port={}", address.port()))
            .stdin(Stdio::null())
            .stdout(Stdio::null())
            .stderr(Stdio::null())
            .spawn()
            .map_err(|fault| format!("chromedriver does not start: {fault}"))?;
        let deadline = Instant::now() + limit;
        let profile = folder.join("profile");
        let mut driver =
            Driver { chromedriver, address, session: String::new(), browser: None, profile, deadline };
        driver.await_ready()?;
        driver.open_session()?;
        Ok(driver)
    }

    fn await_ready(&self) -> Outcome<()> {
        let begun = Instant::now();
        while begun.elapsed() < START_LIMIT {
            if self
                .request("GET", "/status", "")
                .is_ok_and(|status| status.field("ready") == &Json::Truth(true))
            {
                return Ok(());
            }
            std::thread::sleep(Duration::from_millis(50));
        }
        Err("chromedriver is not ready".to_string())
    }

    fn open_session(&mut self) -> Outcome<()> {
        let profile = quoted(&format!("--user-data-dir={}", self.profile.display()));
        // The browser's sandbox refuses to be set up by root.
        let root = std::fs::metadata("/proc/self").is_ok_and(|process| process.uid() == 0);
        let sandbox = if root { ",\"--no-sandbox\"" } else { "" };
        let arguments =
            format!("[\"--headless=new\",\"--disable-gpu\",\"--hide-scrollbars\",{profile}{sandbox}]");
        let wanted = format!(
            "{{\"capabilities\":{{\"alwaysMatch\":{{\"goog:chromeOptions\":{{\"args\":{arguments}}},\
             \"goog:loggingPrefs\":{{\"browser\":\"ALL\"}}}}}}}}"
        );
        let session = self.request("POST", "/session", &wanted)?;
        self.session = format!("/session/{}", session.field("sessionId").text());
        self.browser = session.field("capabilities").field("goog:processID").whole();
        Ok(())
    }

    /// One request; the value that is answered.
    fn request(&self, method: &str, path: &str, body: &str) -> Outcome<Json> {
        if Instant::now() > self.deadline {
            return Err("the time is up".to_string());
        }
        let (status, answer) =
            exchange(self.address, method, path, body).map_err(|fault| format!("{path}: {fault}"))?;
        let answer = json::read(&answer)?;
        let value = answer.field("value");
        if status == 200 {
            Ok(value.clone())
        } else {
            Err(format!("{path}: {}: {}", value.field("error").text(), value.field("message").text()))
        }
    }

    fn post(&self, path: &str, body: &str) -> Outcome<Json> {
        self.request("POST", &format!("{}{path}", self.session), body)
    }

    pub fn open(&self, page: &Path) -> Outcome<()> {
        self.post("/url", &format!("{{\"url\":{}}}", quoted(&format!("file://{}", page.display()))))
            .map(|_| ())
    }

    /// The value of a function body of the page's language.
    pub fn evaluate(&self, script: &str) -> Outcome<Json> {
        self.post("/execute/sync", &format!("{{\"script\":{},\"args\":[]}}", quoted(script)))
    }

    /// Clicks the element, as a person would: it has to be in sight.
    pub fn click(&self, selector: &str) -> Outcome<()> {
        let element = self.element(selector)?;
        self.post(&format!("/element/{element}/click"), "{}").map(|_| ())
    }

    /// Presses keys while the element is in focus.
    pub fn press(&self, selector: &str, keys: &str) -> Outcome<()> {
        let element = self.element(selector)?;
        self.post(&format!("/element/{element}/value"), &format!("{{\"text\":{}}}", quoted(keys))).map(|_| ())
    }

    /// Drags with the pointer from the element's middle, so far from it across, to so far from it; both end inside it.
    pub fn drag(&self, selector: &str, from: i32, to: i32) -> Outcome<()> {
        let element = self.element(selector)?;
        let width =
            format!("return document.querySelector({}).getBoundingClientRect().width", quoted(selector));
        let Json::Number(width) = self.evaluate(&width)? else { return Err("no width".to_string()) };
        let most = (width / 2.0) as i32 - 2;
        let move_to = |across: i32| {
            let across = across.clamp(-most, most);
            let origin = format!("{{\"{ELEMENT}\":\"{element}\"}}");
            format!("{{\"type\":\"pointerMove\",\"duration\":50,\"x\":{across},\"y\":0,\"origin\":{origin}}}")
        };
        let actions = format!(
            "{{\"actions\":[{{\"type\":\"pointer\",\"id\":\"hand\",\"actions\":[{},{{\"type\":\"pointerDown\",\"button\":0}},\
             {},{{\"type\":\"pointerUp\",\"button\":0}}]}}]}}",
            move_to(from),
            move_to(to)
        );
        self.post("/actions", &actions).map(|_| ())
    }

    fn element(&self, selector: &str) -> Outcome<String> {
        let wanted = format!("{{\"using\":\"css selector\",\"value\":{}}}", quoted(selector));
        Ok(self.post("/element", &wanted)?.field(ELEMENT).text().to_string())
    }

    /// What the browser has complained about since it was last asked.
    pub fn complaints(&self) -> Outcome<Vec<String>> {
        let log = self.post("/se/log", "{\"type\":\"browser\"}")?;
        Ok(log.list().iter().map(|entry| entry.field("message").text().to_string()).collect())
    }

    /// A command of the browser's own protocol.
    fn command(&self, name: &str, parameters: &str) -> Outcome<Json> {
        self.post("/goog/cdp/execute", &format!("{{\"cmd\":{},\"params\":{parameters}}}", quoted(name)))
    }

    /// The page as a person with these wishes sees it.
    pub fn emulate(&self, screen: Screen, dark: bool, still: bool) -> Outcome<()> {
        let Screen { width, height, scale } = screen;
        self.command(
            "Emulation.setDeviceMetricsOverride",
            &format!(
                "{{\"width\":{width},\"height\":{height},\"deviceScaleFactor\":{scale},\"mobile\":{}}}",
                width < 500
            ),
        )?;
        let (scheme, motion) =
            (["light", "dark"][usize::from(dark)], ["no-preference", "reduce"][usize::from(still)]);
        let features = format!(
            "{{\"features\":[{{\"name\":\"prefers-color-scheme\",\"value\":\"{scheme}\"}},\
             {{\"name\":\"prefers-reduced-motion\",\"value\":\"{motion}\"}}]}}"
        );
        self.command("Emulation.setEmulatedMedia", &features).map(|_| ())
    }

    /// What the window shows, as a PNG.
    pub fn screenshot(&self) -> Outcome<Vec<u8>> {
        let shot = self.command("Page.captureScreenshot", "{\"format\":\"png\"}")?;
        from_base64(shot.field("data").text())
    }
}

impl Drop for Driver {
    /// The session's end closes the browser. Both are ended in any case.
    fn drop(&mut self) {
        if !self.session.is_empty() {
            let _ = exchange(self.address, "DELETE", &self.session, "");
        }
        if let Some(browser) = self.browser {
            end_process(browser);
        }
        let _ = self.chromedriver.kill();
        let _ = self.chromedriver.wait();
    }
}

/// Waits a moment for the browser's process to end, and ends it if it does not.
fn end_process(process: usize) {
    let running = || {
        let command = std::fs::read_to_string(format!("/proc/{process}/cmdline"));
        command.is_ok_and(|command| command.contains("chrom"))
    };
    let begun = Instant::now();
    while running() && begun.elapsed() < Duration::from_secs(5) {
        std::thread::sleep(Duration::from_millis(50));
    }
    if running() {
        let _ = Command::new("kill").arg(process.to_string()).status();
    }
}

/// Sends a request and reads the answer: its status and body.
fn exchange(address: SocketAddr, method: &str, path: &str, body: &str) -> Outcome<(u16, String)> {
    let fault = |fault: std::io::Error| fault.to_string();
    let mut stream = TcpStream::connect_timeout(&address, REQUEST_LIMIT).map_err(fault)?;
    stream.set_read_timeout(Some(REQUEST_LIMIT)).map_err(fault)?;
    stream.set_write_timeout(Some(REQUEST_LIMIT)).map_err(fault)?;
    let head = format!(
        "{method} {path} HTTP/1.1\r\nHost: {address}\r\nContent-Type: application/json\r\nContent-Length: {}\r\n\
         Connection: close\r\n\r\n",
        body.len()
    );
    stream.write_all([head.as_bytes(), body.as_bytes()].concat().as_slice()).map_err(fault)?;
    let mut answer = Vec::new();
    let mut part = [0; 65536];
    loop {
        if let Some(whole) = taken_apart(&answer) {
            return Ok(whole);
        }
        match stream.read(&mut part).map_err(fault)? {
            0 => return Err("the answer was cut short".to_string()),
            length => answer.extend_from_slice(&part[..length]),
        }
    }
}

/// Status and body of an answer that has come in full.
fn taken_apart(answer: &[u8]) -> Option<(u16, String)> {
    let head_length = answer.windows(4).position(|four| four == b"\r\n\r\n")? + 4;
    let head = String::from_utf8_lossy(&answer[..head_length]).to_lowercase();
    let status = head.split(' ').nth(1)?.parse().ok()?;
    let length: usize =
        head.lines().find_map(|line| line.strip_prefix("content-length:"))?.trim().parse().ok()?;
    let body = answer[head_length..].get(..length)?;
    Some((status, String::from_utf8_lossy(body).into_owned()))
}

fn from_base64(text: &str) -> Outcome<Vec<u8>> {
    const DIGITS: &[u8] = b"ABCDEFGHIJKLMNOPQRSTUVWXYZabcdefghijklmnopqrstuvwxyz0123456789+/";
    let (mut bytes, mut bits, mut held) = (Vec::new(), 0u32, 0);
    for letter in text.trim_end_matches('=').bytes() {
        let digit = DIGITS.iter().position(|&digit| digit == letter).ok_or("no base 64")?;
        bits = bits << 6 | digit as u32;
        held += 6;
        if held >= 8 {
            held -= 8;
            bytes.push((bits >> held) as u8);
            bits &= (1 << held) - 1;
        }
    }
    Ok(bytes)
}

#[cfg(test)]
mod tests {
    use super::*;

    #[test]
    fn answers_are_taken_apart_when_they_have_come() {
        let answer = b"HTTP/1.1 200 OK\r\nContent-Length: 2\r\nOther: x\r\n\r\n{}";
        assert_eq!(taken_apart(answer), Some((200, "{}".to_string())));
        assert!((0..answer.len()).all(|length| taken_apart(&answer[..length]).is_none()));
    }

    #[test]
    fn base_64_is_read() {
        for (text, bytes) in
            [("", ""), ("Zg==", "f"), ("Zm8=", "fo"), ("Zm9v", "foo"), ("Zm9vYmFy", "foobar")]
        {
            assert_eq!(from_base64(text).as_deref(), Ok(bytes.as_bytes()));
        }
        assert!(from_base64("Z?==").is_err());
    }
}
