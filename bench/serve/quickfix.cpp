// An acceptor on QuickFIX: PORT SESSIONS. It has the sessions C0, C1 and so on of GATE, and fills each NewOrderSingle by the
// ExecutionReport that the example broker sends. Its messages are kept in memory and logged nowhere. It runs until it is killed.
// Of QuickFIX's two acceptors it is the one with a single thread; with a third word it is the one with a thread for each
// connection.
#include <quickfix/Application.h>
#include <quickfix/FixFields.h>
#include <quickfix/FixValues.h>
#include <quickfix/MessageCracker.h>
#include <quickfix/MessageStore.h>
#include <quickfix/Session.h>
#include <quickfix/SessionSettings.h>
#include <quickfix/SocketAcceptor.h>
#include <quickfix/ThreadedSocketAcceptor.h>
#include <quickfix/fix44/ExecutionReport.h>
#include <quickfix/fix44/NewOrderSingle.h>

#include <unistd.h>

#include <cstdlib>
#include <iostream>
#include <map>
#include <memory>
#include <sstream>
#include <string>

class Broker : public FIX::Application, public FIX::MessageCracker {
public:
    // The sessions are known before any thread begins.
    void onCreate(const FIX::SessionID &session) override { fills[session] = 0; }
    void onLogon(const FIX::SessionID &) override {}
    void onLogout(const FIX::SessionID &) override {}
    void toAdmin(FIX::Message &, const FIX::SessionID &) override {}
    void toApp(FIX::Message &, const FIX::SessionID &) throw(FIX::DoNotSend) override {}
    void fromAdmin(const FIX::Message &, const FIX::SessionID &) throw(
        FIX::FieldNotFound, FIX::IncorrectDataFormat, FIX::IncorrectTagValue, FIX::RejectLogon) override {}
    void fromApp(const FIX::Message &message, const FIX::SessionID &session) throw(
        FIX::FieldNotFound, FIX::IncorrectDataFormat, FIX::IncorrectTagValue, FIX::UnsupportedMessageType) override {
        crack(message, session);
    }

    void onMessage(const FIX44::NewOrderSingle &order, const FIX::SessionID &session) override {
        FIX::ClOrdID id;
        FIX::Symbol symbol;
        FIX::Side side;
        FIX::OrderQty quantity;
        FIX::Price price;
        order.get(id);
        order.get(symbol);
        order.get(side);
        order.get(quantity);
        order.get(price);
        const std::string name = session.getTargetCompID().getValue() + "-" + std::to_string(++fills[session]);
        FIX44::ExecutionReport report(
            FIX::OrderID{name}, FIX::ExecID{name}, FIX::ExecType(FIX::ExecType_TRADE), FIX::OrdStatus(FIX::OrdStatus_FILLED), side,
            FIX::LeavesQty(0), FIX::CumQty(quantity), FIX::AvgPx(price));
        report.set(id);
        report.set(symbol);
        report.set(quantity);
        report.set(FIX::LastQty(quantity));
        report.set(FIX::LastPx(price));
        FIX::Session::sendToTarget(report, session);
    }

private:
    std::map<FIX::SessionID, long> fills;
};

int main(int count, char **words) {
    if (count != 3 && count != 4) {
        std::cerr << "usage: quickfix PORT SESSIONS [threads]\n";
        return 2;
    }
    // Without a dictionary it checks no more than the broker does: each field by itself.
    std::ostringstream text;
    text << "[DEFAULT]\nConnectionType=acceptor\nBeginString=FIX.4.4\nSenderCompID=GATE\nStartTime=00:00:00\nEndTime=00:00:00\n"
         << "UseDataDictionary=N\nSocketNodelay=Y\nSocketReuseAddress=Y\nSocketAcceptPort=" << words[1] << "\n";
    for (int n = 0; n < std::atoi(words[2]); n++) text << "[SESSION]\nTargetCompID=C" << n << "\n";
    std::istringstream lines(text.str());
    try {
        FIX::SessionSettings settings(lines);
        Broker broker;
        FIX::MemoryStoreFactory store;
        std::unique_ptr<FIX::Acceptor> acceptor;
        if (count == 4)
            acceptor.reset(new FIX::ThreadedSocketAcceptor(broker, store, settings));
        else
            acceptor.reset(new FIX::SocketAcceptor(broker, store, settings));
        acceptor->start();
        for (;;) pause();
    } catch (const std::exception &why) {
        std::cerr << "quickfix: " << why.what() << "\n";
        return 1;
    }
}
