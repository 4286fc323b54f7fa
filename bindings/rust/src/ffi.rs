//! The exported functions, as include/caviar.h declares them.

use crate::{Answer, Asked, Charged, Guest, Request, Tariff};

extern "C" {
    pub fn caviar_book_len(settings: *const u32, settings_len: usize) -> u64;
    pub fn caviar_lay(settings: *const u32, settings_len: usize, book: *mut u32, book_len: usize) -> Answer;
    pub fn caviar_check(book: *const u32, book_len: usize) -> Answer;
    pub fn caviar_request(book: *mut u32, book_len: usize, request: Request) -> Answer;
    pub fn caviar_requests(
        book: *mut u32,
        book_len: usize,
        requests: *const u32,
        requests_len: usize,
        answers: *mut u32,
        answers_len: usize,
    ) -> Answer;
    pub fn caviar_serve(
        settings: *const u32,
        settings_len: usize,
        book: *mut u32,
        book_len: usize,
        requests: *const u32,
        requests_len: usize,
        answers: *mut u32,
        answers_len: usize,
    ) -> Answer;
    pub fn caviar_order(book: *mut u32, book_len: usize, order: u32, request: Request) -> Answer;
    pub fn caviar_orders(
        book: *mut u32,
        book_len: usize,
        orders: *const u32,
        orders_len: usize,
        answers: *mut u32,
        answers_len: usize,
    ) -> Answer;
    pub fn caviar_serve_orders(
        settings: *const u32,
        settings_len: usize,
        book: *mut u32,
        book_len: usize,
        orders: *const u32,
        orders_len: usize,
        answers: *mut u32,
        answers_len: usize,
    ) -> Answer;
    pub fn caviar_ask(book: *const u32, book_len: usize, request: Request) -> Asked;
    pub fn caviar_commit(book: *mut u32, book_len: usize, count: u32, request: Request) -> Answer;
    pub fn caviar_charge(
        book: *const u32,
        book_len: usize,
        meeting: u32,
        first: u32,
        last: u32,
        tariff: Tariff,
    ) -> Charged;
    pub fn caviar_page(book: *const u32, book_len: usize, date: u32, page: *mut u8, page_len: usize) -> Answer;
    pub fn caviar_party(
        book: *mut u32,
        book_len: usize,
        meeting: u32,
        guests: *const Guest,
        guests_len: usize,
    ) -> Answer;
}
