//! The examples of servers, under load: each request is accounted for, and finds a number.
#[cfg(feature = "async")]
#[allow(dead_code)]
#[path = "../examples/futures.rs"]
mod futures;
#[allow(dead_code)]
#[path = "../examples/server/main.rs"]
mod server;

#[cfg(feature = "async")]
#[test]
fn each_request_of_a_server_of_tasks_is_accounted_for() {
    futures::run().unwrap();
}

#[test]
fn two_hundred_connections_come_and_go() {
    server::run([200, 16, 20, 4, 100]).unwrap();
}

#[test]
fn requests_wait_too_long() {
    server::run([200, 16, 4, 1, 1]).unwrap();
}

#[test]
fn four_thousand_connections_are_open_at_once_with_sixteen_requests_each() {
    server::run([4000, 16, 2, 4, 100]).unwrap();
}
